//! Two wrong things at once, which are refused as one is.

use crate::comparison::recordings::builder::{change_header, every_kind};
use crate::comparison::recordings::case::{put, Group, Sink};
use crate::recording::{events_end, HEADER_BYTES};

/// A wrong thing: a name and what it does to the file of one event of every kind (`every_kind`).
type WrongThing = (&'static str, fn(&mut Vec<u8>));

const WRONG_THINGS: [WrongThing; 14] = [
    ("total one more", |file| change_header(file, |header| header.total += 1)),
    ("total one less", |file| change_header(file, |header| header.total -= 1)),
    ("first event at 9", |file| change_header(file, |header| header.first_event = 9)),
    ("page bytes 8 later", |file| change_header(file, |header| header.page_bytes += 8)),
    ("an event more", |file| change_header(file, |header| header.event_count += 1)),
    ("a byte more", |file| file.push(0)),
    ("a byte fewer", |file| file.truncate(file.len() - 1)),
    ("eight bytes only", |file| file.truncate(HEADER_BYTES)),
    ("kind 12 for power-on", |file| change(file, 0, 0, 12)),
    ("support flag 3", |file| change(file, 3, 3, 3)),
    ("an unused nexus", |file| change(file, 6, 1, 3)),
    ("an unused argument", |file| change(file, 8, 2, 1)),
    ("an unused page length", |file| change(file, 2, 7, 1)),
    ("a page one byte past the end", |file| change(file, 1, 7, 53)),
];

/// A byte of an event becomes this, if the file has it.
fn change(file: &mut [u8], event: usize, byte: usize, value: u8) {
    if let Some(byte) = file.get_mut(events_end(event) + byte) {
        *byte = value;
    }
}

/// Each wrong thing alone, and with each other.
pub fn recordings(sink: &mut Sink) {
    for (at, (name, wrong)) in WRONG_THINGS.iter().enumerate() {
        let mut file = every_kind().bytes();
        wrong(&mut file);
        for (other_name, other_wrong) in &WRONG_THINGS[at + 1..] {
            let mut file = file.clone();
            other_wrong(&mut file);
            put(sink, Group::TwoWrongThings, format!("{name}, {other_name}"), file);
        }
        put(sink, Group::TwoWrongThings, format!("{name}, alone"), file);
    }
}
