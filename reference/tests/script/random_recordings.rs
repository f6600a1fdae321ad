//! Random sound recordings: any field, any page, any layout.

use reference::comparison::numbers::Numbers;
use reference::comparison::page_builder::{random_damage, random_list, Edit, Family, SetPage};
use reference::recording::{Event, Recording};
use reference::sizes::KEY_BYTES;
use reference::stream::kind;

/// How the pages of a recording stand.
#[derive(Clone, Copy, PartialEq, Eq, Debug)]
pub enum Layout {
    /// One after another, in the order of the events.
    Natural,
    /// The same, with bytes after the last page that no event uses.
    BytesLeftOver,
    /// In any order.
    Shuffled,
    /// Some pages are used by several events.
    Shared,
    /// Any offset and length that fit.
    Any,
}

impl Layout {
    pub const EVERY: [Layout; 5] =
        [Layout::Natural, Layout::BytesLeftOver, Layout::Shuffled, Layout::Shared, Layout::Any];
}

/// A recording of up to so many events.
pub fn random_recording(numbers: &mut Numbers, layout: Layout, events: usize) -> Recording {
    let count = numbers.below(events + 1);
    let mut events: Vec<Event> = (0..count).map(|_| random_event(numbers)).collect();
    let mut page_bytes = Vec::new();
    let mut outs: Vec<usize> = (0..count).filter(|&at| events[at].kind == kind::OUT).collect();
    if layout == Layout::Shuffled {
        (1..outs.len()).for_each(|last| outs.swap(last, numbers.below(last + 1)));
    }
    for at in outs {
        let page = random_page(numbers);
        if layout == Layout::Shared && numbers.percent(50) {
            place_anywhere(&mut events[at], page_bytes.len(), numbers);
            continue;
        }
        events[at].page_offset = page_bytes.len() as u16;
        events[at].page_length = page.len() as u16;
        page_bytes.extend(page);
    }
    if layout != Layout::Natural && numbers.percent(50) {
        page_bytes.extend(random_bytes(numbers));
    }
    if layout == Layout::Any {
        let outs = events.iter_mut().filter(|event| event.kind == kind::OUT);
        outs.for_each(|event| place_anywhere(event, page_bytes.len(), numbers));
    }
    Recording { events, page_bytes }
}

/// Gives an event some of the page bytes.
fn place_anywhere(event: &mut Event, page_bytes: usize, numbers: &mut Numbers) {
    let offset = numbers.below(page_bytes + 1);
    event.page_offset = offset as u16;
    event.page_length = numbers.below(page_bytes - offset + 1) as u16;
}

/// Any event without its page, half of them OUTs.
fn random_event(numbers: &mut Numbers) -> Event {
    let kind = if numbers.percent(45) { kind::OUT } else { numbers.below(12) as u8 };
    let any_nexus = numbers.byte();
    let any_argument = numbers.next() as u16;
    let known_page = numbers.pick(&[0x0000, 0x0010, 0x0010, 0x0020, any_argument]);
    let small = numbers.below(5) as u16;
    let (nexus, argument) = match kind {
        kind::IN | kind::OUT => (any_nexus, known_page),
        kind::WRITE => (any_nexus, small & 1),
        kind::NEXUS_RESERVATION_LOSS | kind::PREEMPT => (any_nexus % 32, 0),
        kind::VENDOR_RELEASE => (0, numbers.pick(&[small, any_argument])),
        kind::READ => (any_nexus % 16, numbers.pick(&[0x0000, 0x00FF, 0x0100 + small, 0x02FF, any_argument])),
        _ => (0, 0),
    };
    Event { kind, nexus, argument, page_offset: 0, page_length: 0 }
}

/// Any page: by fields, of the comparison's families, damaged, or any bytes.
pub fn random_page(numbers: &mut Numbers) -> Vec<u8> {
    let mut page = match numbers.below(4) {
        0 => return random_bytes(numbers),
        1 => {
            let length = numbers.below(120);
            numbers.pick(&Family::EVERY).page_of(length)
        }
        _ => random_set_page(numbers).bytes(),
    };
    if numbers.percent(25) {
        random_damage(&mut page, &Edit::of_set_page(), 20 + KEY_BYTES, numbers);
    }
    page
}

/// A page by its fields, right or wrong.
fn random_set_page(numbers: &mut Numbers) -> SetPage {
    let any = numbers.byte();
    let key_length = numbers.pick(&[0, 1, 16, 31, 32, 32, 32, 32, 33, 70]);
    let key_byte = numbers.byte();
    SetPage {
        scope: numbers.below(8) as u8,
        lock: numbers.percent(50),
        ceem: numbers.below(4) as u8,
        rdmc: numbers.below(4) as u8,
        sdk: numbers.percent(20),
        ckod: numbers.percent(50),
        ckorp: numbers.percent(50),
        ckorl: numbers.percent(50),
        encryption: numbers.pick(&[0, 1, 2, 2, 3, any]),
        decryption: numbers.pick(&[0, 1, 2, 3, 4, any]),
        algorithm: numbers.pick(&[1, 1, 1, 0, any]),
        key: if numbers.percent(50) { vec![key_byte; key_length] } else { numbers.bytes(key_length) },
        list: if numbers.percent(50) { random_list(numbers) } else { Vec::new() },
    }
}

/// Some bytes with runs among them.
pub fn random_bytes(numbers: &mut Numbers) -> Vec<u8> {
    let mut bytes = Vec::new();
    for _ in 0..numbers.below(12) {
        let length = numbers.pick(&[1, 1, 1, 2, 3, 4, 30]);
        let byte = numbers.pick(&[0x00, 0x01, 0x10, 0xA7, 0xFF]);
        bytes.extend(vec![byte; length]);
    }
    bytes
}
