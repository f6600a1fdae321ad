//! Random recordings: of calls that fit one another, sound and damaged in turn.

use super::builder::{change_header, is_recordable, recording_of};
use super::case::{Case, Group};
use crate::codes::PROTOCOL;
use crate::comparison::numbers::Numbers;
use crate::comparison::random::RandomSessions;
use crate::recording::{events_end, Event, Header, Recording, EVENT_BYTES, HEADER_BYTES};
use crate::stream::{kind, Command};

/// Makes random recordings from a seed.
pub struct RandomRecordings {
    numbers: Numbers,
    sessions: RandomSessions,
    enrich: Enrich,
    made: usize,
}

/// What is made of a session's commands before they are recorded.
type Enrich = fn(Vec<Command>, &mut Numbers) -> Vec<Command>;

/// A way to damage a file; what comes out may be sound.
pub type Damage = (Group, &'static str, fn(&mut Vec<u8>, &mut Numbers));

const DAMAGES: [Damage; 15] = [
    (Group::RandomHeader, "event count", |file, numbers| in_header(file, numbers, 0)),
    (Group::RandomHeader, "first event", |file, numbers| in_header(file, numbers, 1)),
    (Group::RandomHeader, "page bytes", |file, numbers| in_header(file, numbers, 2)),
    (Group::RandomHeader, "total", |file, numbers| in_header(file, numbers, 3)),
    (Group::RandomEvent, "kind", |file, numbers| {
        let kind = if numbers.percent(70) { numbers.below(14) as u8 } else { numbers.byte() };
        in_event(file, numbers, |event| event.kind = kind)
    }),
    (Group::RandomEvent, "nexus", |file, numbers| {
        let nexus = small_or_any(numbers) as u8;
        in_event(file, numbers, |event| event.nexus = nexus)
    }),
    (Group::RandomEvent, "argument", |file, numbers| {
        let argument = small_or_any(numbers);
        in_event(file, numbers, |event| event.argument = argument)
    }),
    (Group::RandomEvent, "page offset", |file, numbers| {
        let offset = small_or_any(numbers);
        in_event(file, numbers, |event| event.page_offset = offset)
    }),
    (Group::RandomEvent, "page length", |file, numbers| {
        let length = small_or_any(numbers);
        in_event(file, numbers, |event| event.page_length = length)
    }),
    (Group::RandomPageBounds, "by offset", |file, numbers| at_page_bounds(file, numbers, true)),
    (Group::RandomPageBounds, "by length", |file, numbers| at_page_bounds(file, numbers, false)),
    (Group::RandomCut, "cut", cut),
    (Group::RandomLengthened, "lengthened", lengthen),
    (Group::RandomBit, "bits flipped", |file, numbers| flip_bits(file, numbers)),
    (Group::RandomEventMoved, "event moved", move_event),
];

impl RandomRecordings {
    /// The recordings of a seed.
    pub fn new(seed: u64) -> Self {
        RandomRecordings::enriched(seed, |commands, _| commands)
    }

    /// The recordings of a seed, with more commands than the sessions have by themselves.
    pub fn enriched(seed: u64, enrich: Enrich) -> Self {
        let numbers = Numbers::new(!seed);
        RandomRecordings { numbers, sessions: RandomSessions::new(seed), enrich, made: 0 }
    }

    /// The next recording: every other one is damaged, in each way in turn.
    pub fn recording(&mut self) -> Case {
        let mut file = self.sound().bytes();
        let (turn, damaged) = (self.made / 2, self.made % 2 == 1);
        self.made += 1;
        if !damaged {
            return Case { group: Group::RandomSound, name: "sound".to_string(), file };
        }
        let (group, name, damage) = DAMAGES[turn % DAMAGES.len()];
        damage(&mut file, &mut self.numbers);
        Case { group, name: name.to_string(), file }
    }

    /// A sound recording.
    fn sound(&mut self) -> Recording {
        let count = match self.numbers.below(100) {
            0..=3 => 0,
            4..=8 => 300,
            _ => 1 + self.numbers.below(50),
        };
        let commands = (self.enrich)(self.sessions.commands(count, recorded), &mut self.numbers);
        let mut recording = recording_of(&commands);
        place_pages(&mut recording, &mut self.numbers);
        recording
    }
}

/// Puts the pages of some recordings elsewhere.
pub fn place_pages(recording: &mut Recording, numbers: &mut Numbers) {
    if numbers.percent(30) {
        surround_pages(recording, numbers);
    }
    if numbers.percent(20) {
        move_page(recording, numbers);
    }
}

/// Puts bytes that no page uses before and after the pages.
fn surround_pages(recording: &mut Recording, numbers: &mut Numbers) {
    let most = if numbers.percent(15) { 20_000 } else { 40 };
    let (before, after) = (numbers.below(most), numbers.below(most));
    let (before, after) = (numbers.bytes(before), numbers.bytes(after));
    for event in recording.events.iter_mut().filter(|event| event.kind == kind::OUT) {
        event.page_offset += before.len() as u16;
    }
    recording.page_bytes = [before, std::mem::take(&mut recording.page_bytes), after].concat();
}

/// Moves an event's page to anywhere within the page bytes, so that it overlaps others.
fn move_page(recording: &mut Recording, numbers: &mut Numbers) {
    let limit = recording.page_bytes.len() + 1;
    let mut outs = recording.events.iter_mut().filter(|event| event.kind == kind::OUT);
    let Some(event) = outs.next_back() else { return };
    let start = numbers.below(limit);
    let length = numbers.below((limit - start).min(80));
    (event.page_offset, event.page_length) = (start as u16, length as u16);
}

/// The command as a recording has it: under protocol 20h, without bytes in fields that the kind doesn't have.
pub fn recorded(command: Command) -> Option<Command> {
    let command = Command { protocol: PROTOCOL, ..command };
    is_recordable(&command).then_some(command)
}

/// A small number or any.
pub fn small_or_any(numbers: &mut Numbers) -> u16 {
    match numbers.below(4) {
        0 => numbers.below(4) as u16,
        1 => numbers.below(80) as u16,
        2 => numbers.pick(&[15, 16, 255, 256, 257, 0x7FFF, 0x8000, 0xFFFE, 0xFFFF]),
        _ => numbers.next() as u16,
    }
}

/// Changes one of the header's four numbers at random.
fn in_header(file: &mut [u8], numbers: &mut Numbers, number: usize) {
    change_number(file, number, |right| {
        let off = numbers.pick(&[1, -1, 2, 7, 8, -8, 16, 256]);
        if numbers.percent(70) {
            right.wrapping_add_signed(off)
        } else {
            small_or_any(numbers)
        }
    });
}

/// Changes one of the header's four numbers.
pub fn change_number(file: &mut [u8], number: usize, change: impl FnOnce(u16) -> u16) {
    let bytes = &mut file[2 * number..2 * number + 2];
    let new = change(u16::from_be_bytes([bytes[0], bytes[1]]));
    bytes.copy_from_slice(&new.to_be_bytes());
}

/// Changes one of the file's events.
pub fn in_event(file: &mut [u8], numbers: &mut Numbers, change: impl Fn(&mut Event)) {
    let count = Header::read(file).map_or(0, |header| usize::from(header.event_count));
    let at = events_end(numbers.below(count.max(1)));
    let Some(bytes) = file.get_mut(at..at + EVENT_BYTES) else { return };
    let mut event = Event::read((&*bytes).try_into().expect("eight bytes"));
    change(&mut event);
    bytes.copy_from_slice(&event.bytes());
}

/// Makes a page end at, one before or one past the end of the page bytes.
fn at_page_bounds(file: &mut [u8], numbers: &mut Numbers, by_offset: bool) {
    let page_bytes = Header::read(file).map_or(0, |header| header.total - header.page_bytes);
    let end = page_bytes.saturating_add_signed(numbers.pick(&[-1, 0, 0, 1, 1, 2]));
    let part = numbers.below(usize::from(end) + 1) as u16;
    in_event(file, numbers, |event| {
        if event.kind != kind::OUT {
            *event = Event { kind: kind::OUT, nexus: event.nexus, argument: 0x0010, ..Event::default() };
        }
        let length = if by_offset { event.page_length.min(end) } else { part };
        (event.page_offset, event.page_length) = (end - length, length);
    });
}

/// Cuts bytes off the file's end, the total as it was or put right.
fn cut(file: &mut Vec<u8>, numbers: &mut Numbers) {
    let fewer = if numbers.percent(50) { 1 + numbers.below(9) } else { numbers.below(file.len() + 1) };
    file.truncate(file.len().saturating_sub(fewer));
    let length = file.len() as u16;
    if numbers.percent(50) {
        change_header(file, |header| header.total = length);
    }
}

/// Adds bytes at the file's end, the total as it was or put right.
fn lengthen(file: &mut Vec<u8>, numbers: &mut Numbers) {
    let more = if numbers.percent(70) { 1 + numbers.below(16) } else { numbers.below(70_000) };
    file.extend(numbers.bytes(more));
    let length = file.len() as u16;
    if numbers.percent(50) {
        change_header(file, |header| header.total = length);
    }
}

/// Flips one to three bits, mostly of the header and the events.
fn flip_bits(file: &mut [u8], numbers: &mut Numbers) {
    for _ in 0..1 + numbers.below(3) {
        let limit = if numbers.percent(70) { file.len().min(60) } else { file.len() };
        let at = numbers.below(limit);
        file[at] ^= 1 << numbers.below(8);
    }
}

/// Drops, doubles or swaps events; the header as it was or put right.
fn move_event(file: &mut Vec<u8>, numbers: &mut Numbers) {
    let Some(mut recording) = Recording::read(file).filter(|recording| !recording.events.is_empty()) else {
        return;
    };
    let (at, other) = (numbers.below(recording.events.len()), numbers.below(recording.events.len()));
    let header = recording.bytes()[..HEADER_BYTES].to_vec();
    match numbers.below(3) {
        0 => drop(recording.events.remove(at)),
        1 => recording.events.insert(other, recording.events[at]),
        _ => recording.events.swap(at, other),
    }
    *file = recording.bytes();
    if numbers.percent(30) {
        file[..HEADER_BYTES].copy_from_slice(&header);
    }
}
