//! Wrong fields of events: kinds, support flags, unused fields.

use crate::comparison::recordings::builder::file_of;
use crate::comparison::recordings::case::{put, Group, Sink};
use crate::recording::{fields_of, Event, EVENT_BYTES};
use crate::stream::kind;

/// A demount, which is sound before and after anything.
const DEMOUNT: Event = Event { kind: kind::DEMOUNT, nexus: 0, argument: 0, page_offset: 0, page_length: 0 };

pub fn recordings(sink: &mut Sink) {
    kinds(sink);
    support_flags(sink);
    unused_fields(sink);
}

/// Kinds 12 to 255 after a sound event; some of them first, and with fields as if they had them.
fn kinds(sink: &mut Sink) {
    for kind in 12..=255 {
        let event = Event { kind, ..Event::default() };
        put(sink, Group::KindAbove11, format!("kind {kind}"), file_of(vec![DEMOUNT, event], Vec::new()));
    }
    for kind in [12, 13, 128, 253, 254, 255] {
        let event = Event { kind, nexus: 3, argument: 1, ..Event::default() };
        put(
            sink,
            Group::KindAbove11,
            format!("kind {kind} first"),
            file_of(vec![event, DEMOUNT], Vec::new()),
        );
        let event = Event { page_length: 20, ..event };
        let name = format!("kind {kind} with a page");
        put(sink, Group::KindAbove11, name, file_of(vec![DEMOUNT, event], vec![0; 20]));
    }
    let every = (0..12).map(|kind| Event { kind, ..Event::default() }).collect();
    put(sink, Group::SoundNeighbour, "kinds 0 to 11 with zeros", file_of(every, Vec::new()));
}

/// "the support flag 0 or 1", from nexuses in and out of range.
fn support_flags(sink: &mut Sink) {
    let write = |nexus, argument| Event { kind: kind::WRITE, nexus, argument, ..Event::default() };
    for flag in [2, 3, 0x0080, 0x00FF, 0x0100, 0x0101, 0x0200, 0x8000, 0x8001, 0xFFFE, 0xFFFF] {
        let file = file_of(vec![DEMOUNT, write(3, flag)], Vec::new());
        put(sink, Group::SupportFlag, format!("support flag {flag}"), file);
    }
    let file = file_of(vec![write(16, 2), DEMOUNT], Vec::new());
    put(sink, Group::SupportFlag, "support flag 2 of nexus 16", file);
    let both = vec![write(3, 0), write(3, 1), write(16, 0), write(16, 1)];
    put(sink, Group::SoundNeighbour, "support flags 0 and 1", file_of(both, Vec::new()));
}

/// "unused fields are zero": each byte of each unused field of each kind, alone. The page bytes are as many as a page
/// offset or a page length there would ask for.
fn unused_fields(sink: &mut Sink) {
    for kind in 0..12 {
        for byte in (1..EVENT_BYTES).filter(|&byte| !is_used(kind, byte)) {
            for value in [1, 128, 255] {
                let mut bytes = Event { kind, ..Event::default() }.bytes();
                bytes[byte] = value;
                let event = Event::read(bytes);
                let page_bytes = usize::from(event.page_offset) + usize::from(event.page_length);
                let file = file_of(vec![DEMOUNT, event], vec![0; page_bytes]);
                put(sink, Group::UnusedField, format!("kind {kind}, byte {byte} {value}"), file);
            }
        }
    }
}

/// Whether a kind's event uses a byte.
fn is_used(kind: u8, byte: usize) -> bool {
    let fields = fields_of(kind).expect("a kind of event");
    match byte {
        1 => fields.nexus,
        2 | 3 => fields.argument,
        _ => fields.page,
    }
}
