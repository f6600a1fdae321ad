//! Stored page offsets: those that are 8 plus a multiple of 8 and those that aren't, up to the file's end and past it.

use super::three_pages;
use crate::comparison::recordings::builder::{change_header, every_kind, with_header};
use crate::comparison::recordings::case::{put, Group, Sink};
use crate::recording::{Header, EVENT_BYTES, HEADER_BYTES, LONGEST};

pub fn recordings(sink: &mut Sink) {
    every_small_one(sink);
    every_event(sink);
    around_the_end(sink);
    bits(sink);
    in_the_longest(sink);
}

/// A file of so many bytes, zeros but for its header: its events are power-ons.
fn zeros(length: usize, page_bytes: u16) -> Vec<u8> {
    let header = Header { event_count: 1, first_event: 8, page_bytes, total: length as u16 };
    let mut file = vec![0; length];
    file[..HEADER_BYTES].copy_from_slice(&header.bytes());
    file
}

/// Each offset from 0 on, in a file of four events.
fn every_small_one(sink: &mut Sink) {
    for offset in 0..=50 {
        put(sink, Group::SalvageOffsets, format!("{offset} in 40 bytes"), zeros(40, offset));
    }
}

/// Each offset at which an event may end: what was an event is a page byte, and page bytes are events.
fn every_event(sink: &mut Sink) {
    for (name, recording) in [("every kind", every_kind()), ("three pages", three_pages())] {
        let length = recording.bytes().len();
        for offset in (HEADER_BYTES..=length + 16).step_by(EVENT_BYTES) {
            let file = with_header(&recording, |header| header.page_bytes = offset as u16);
            put(sink, Group::SalvageOffsets, format!("{offset} in {name}"), file);
        }
    }
}

/// Offsets at the end, and 1 to 8 bytes past it.
fn around_the_end(sink: &mut Sink) {
    for length in [8, 9, 15, 16, 17, 23, 24] {
        for offset in [8, 16, 24, 32] {
            put(sink, Group::SalvageOffsets, format!("{offset} in {length} bytes"), zeros(length, offset));
        }
    }
    for length in (10..15).chain(18..23) {
        put(sink, Group::SalvageOffsets, format!("24 in {length} bytes"), zeros(length, 24));
    }
    for length in [8, 16, 65_527, 65_528, 65_529] {
        for offset in [65_520, 65_527, 65_528, 65_529, 65_535] {
            put(sink, Group::SalvageOffsets, format!("{offset} in {length} bytes"), zeros(length, offset));
        }
    }
}

/// Each bit of an offset, and the event before it.
fn bits(sink: &mut Sink) {
    let of_bit = |bit: u16| [bit, 8 ^ bit, bit.wrapping_sub(8), u16::MAX ^ bit, 0xFFF8 ^ bit];
    let mut offsets: Vec<u16> = (0..16).flat_map(|bit| of_bit(1 << bit)).collect();
    offsets.sort();
    offsets.dedup();
    for offset in offsets {
        put(sink, Group::SalvageOffsets, format!("{offset} in 40,000 bytes"), zeros(40_000, offset));
    }
}

/// Offsets in a file of 65,535 bytes, the header's other numbers right for them or not.
fn in_the_longest(sink: &mut Sink) {
    for offset in
        [0, 7, 8, 9, 15, 16, 0x7FF8, 0x8000, 0x8008, 65_504, 65_512, 65_520, 65_527, 65_528, 65_529, 65_535]
    {
        let mut file = zeros(LONGEST, offset);
        put(sink, Group::SalvageOffsets, format!("{offset} in 65,535 bytes"), file.clone());
        change_header(&mut file, |header| header.event_count = offset.wrapping_sub(8) / 8);
        put(sink, Group::SalvageOffsets, format!("{offset} in 65,535 bytes, its events counted"), file);
    }
}
