//! Pages at the bounds of the page bytes, within and past them.

use crate::codes::page_code;
use crate::comparison::page_builder::SetPage;
use crate::comparison::recordings::builder::file_of;
use crate::comparison::recordings::case::{put, Group, Sink};
use crate::recording::{Event, Recording};
use crate::stream::kind;

/// Counts of page bytes: none, one, a K, and more than a byte can tell.
const COUNTS: [u16; 4] = [0, 1, 52, 300];

pub fn recordings(sink: &mut Sink) {
    for count in COUNTS {
        bounds(count, sink);
    }
    within_the_file_only(sink);
    other_codes_and_nexuses(sink);
    places_in_the_file(sink);
}

/// OUT of a page.
fn out(page_offset: u16, page_length: u16) -> Event {
    Event { kind: kind::OUT, nexus: 3, argument: page_code::SET_DATA_ENCRYPTION, page_offset, page_length }
}

/// So many page bytes, K first.
fn page_bytes(count: u16) -> Vec<u8> {
    let mut bytes = SetPage::k().bytes();
    bytes.resize(usize::from(count), 0x5A);
    bytes
}

/// Offsets and lengths that just end within so many page bytes, and those that don't.
fn bounds(count: u16, sink: &mut Sink) {
    let within = [(0, count), (count, 0), (count.saturating_sub(1), count.min(1)), (0, 0)];
    let sound = within.iter().map(|&(offset, length)| out(offset, length)).collect();
    let file = file_of(sound, page_bytes(count));
    put(sink, Group::OddPages, format!("pages that end with {count} page bytes"), file);
    let past = [
        (0, count + 1),
        (1, count),
        (count, 1),
        (count + 1, 0),
        (count + 8, 0),
        (0, count + 8),
        (0, u16::MAX),
        (u16::MAX, 0),
        // sums of 65,536 and more, which numbers of 16 bits don't hold
        (u16::MAX, 1),
        (1, u16::MAX),
        (0x8000, 0x8000),
        (u16::MAX, u16::MAX),
        (count + 1, u16::MAX - count),
        (u16::MAX - 10, 11 + count),
    ];
    for (offset, length) in past {
        let file = file_of(vec![out(0, 0), out(offset, length)], page_bytes(count));
        put(sink, Group::PagePastEnd, format!("{length} bytes at {offset} of {count}"), file);
    }
}

/// Pages that end within the file but past its page bytes, as if offsets counted from the file's start or from the
/// events'.
fn within_the_file_only(sink: &mut Sink) {
    for (offset, length) in [(24, 52), (16, 52), (8, 52), (0, 60), (0, 76), (52, 24), (60, 0), (76, 0)] {
        let file = file_of(vec![out(0, 52), out(offset, length)], page_bytes(52));
        put(sink, Group::PagePastEnd, format!("{length} bytes at {offset} of 52, within the file"), file);
    }
}

/// A page past the end is wrong whatever the calls would say of its event.
fn other_codes_and_nexuses(sink: &mut Sink) {
    let not_looked_at = [
        ("nexus 16", Event { nexus: 16, ..out(0, 53) }),
        ("page code 0011h", Event { argument: 0x0011, ..out(0, 53) }),
        ("nexus 255, page code FFFFh", Event { nexus: 255, argument: 0xFFFF, ..out(0, 53) }),
    ];
    for (name, event) in not_looked_at {
        let file = file_of(vec![event], page_bytes(52));
        put(sink, Group::PagePastEnd, format!("53 bytes of 52, {name}"), file);
        let within = Event { page_length: 52, ..event };
        put(sink, Group::OddPages, format!("52 bytes of 52, {name}"), file_of(vec![within], page_bytes(52)));
    }
}

/// A page past the end in the first, a middle and the last of several OUT events.
fn places_in_the_file(sink: &mut Sink) {
    let recording = Recording { events: vec![out(0, 52); 5], page_bytes: page_bytes(52) };
    put(sink, Group::OddPages, "five times the same page", recording.bytes());
    for at in [0, 2, 4] {
        let mut events = recording.events.clone();
        events[at].page_length += 1;
        let file = file_of(events, page_bytes(52));
        put(sink, Group::PagePastEnd, format!("event {at} of 5 a byte past the end"), file);
    }
}
