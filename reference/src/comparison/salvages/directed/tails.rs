//! Tails that a power loss cut anywhere, overwrote or left to grow, the header as it was.

use super::three_pages;
use crate::comparison::recordings::builder::change_header;
use crate::comparison::recordings::case::{put, Group, Sink};
use crate::recording::{events_end, Recording, LONGEST};

pub fn recordings(sink: &mut Sink) {
    every_cut(sink);
    pages_in_another_order(sink);
    overwritten(sink);
    grown(sink);
}

/// Each byte at which three pages can end, and some before them. A total put right changes nothing that is kept.
fn every_cut(sink: &mut Sink) {
    let recording = three_pages();
    let (file, pages) = (recording.bytes(), events_end(recording.events.len()));
    for length in (0..pages - 8).step_by(5).chain(pages - 8..file.len()) {
        let mut cut = file[..length].to_vec();
        put(sink, Group::SalvageTails, format!("{length} bytes left"), cut.clone());
        if length >= pages && length % 8 < 2 {
            change_header(&mut cut, |header| header.total = length as u16);
            put(sink, Group::SalvageTails, format!("{length} bytes left and told"), cut);
        }
    }
}

/// The first page sent is the last one in the page bytes: with a byte of it every event is lost.
fn pages_in_another_order(sink: &mut Sink) {
    let Recording { mut events, page_bytes } = three_pages();
    let of_last = events[5];
    events[0] = of_last;
    let recording = Recording { events, page_bytes };
    let file = recording.bytes();
    for fewer in [0, 1, 8, 52, 53] {
        let cut = file[..file.len() - fewer].to_vec();
        put(sink, Group::SalvageTails, format!("the last page first, {fewer} bytes fewer"), cut);
    }
}

/// Zeros, FFh or other bytes from somewhere to the end: of zeros power-ons are made, other bytes are no events.
fn overwritten(sink: &mut Sink) {
    for value in [0, 5, 0xFF] {
        let file = three_pages().bytes();
        for start in [8, 9, 12, 16, 20, 32, 57, 63, 64, 65, 100, file.len() - 1] {
            let mut file = file.clone();
            file[start..].fill(value);
            put(sink, Group::SalvageTails, format!("{value:02X}h from byte {start} on"), file);
        }
    }
}

/// Bytes after the end, up to 65,535 in all and past it.
fn grown(sink: &mut Sink) {
    let file = three_pages().bytes();
    let to_limit = LONGEST - file.len();
    for more in [1, 2, 7, 8, 9, 16, 255, 256, to_limit - 1, to_limit, to_limit + 1, to_limit + 8] {
        let grown = [&file[..], &vec![0xE5; more]].concat();
        put(sink, Group::SalvageTails, format!("{more} bytes more"), grown);
    }
}
