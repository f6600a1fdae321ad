//! Header numbers that lie, one by one and together, over sound events and over events of which one is wrong.

use super::{three_pages, wrong};
use crate::comparison::recordings::builder::{bases, requests, with_header};
use crate::comparison::recordings::case::{put, Group, Sink};
use crate::recording::{Header, Recording};
use crate::salvage::salvage;

pub fn recordings(sink: &mut Sink) {
    for (name, recording) in bases() {
        numbers_together(&format!("{name}, sound"), &recording, sink);
        let events = [&recording.events[..], &[wrong()]].concat();
        numbers_together(&format!("{name}, wrong at the end"), &Recording { events, ..recording }, sink);
    }
    let mut wrong_between = three_pages();
    wrong_between.events.insert(4, wrong());
    for (name, recording) in
        [("the request's file", requests()), ("three pages", three_pages()), ("wrong between", wrong_between)]
    {
        single_numbers(name, &recording, sink);
        overwritten(name, &recording, sink);
    }
}

/// Each of the three numbers that aren't believed is right for the new file, or lies.
fn numbers_together(name: &str, recording: &Recording, sink: &mut Sink) {
    let Some(salvaged) = salvage(&recording.bytes()) else { return };
    for lies in 0..8 {
        let lie =
            |number: u16, bit: usize| if lies >> bit & 1 == 1 { number.wrapping_add(9) } else { number };
        let file = with_header(recording, |header| {
            let Header { event_count, first_event, total, .. } = salvaged.report.new;
            header.event_count = lie(event_count, 0);
            header.first_event = lie(first_event, 1);
            header.total = lie(total, 2);
        });
        put(sink, Group::SalvageHeaders, format!("{name}, lies {lies:03b}"), file);
    }
}

/// Values around those of the file, those of the new file and the limits, each once.
fn around(values: &[usize], limits: &[u16]) -> Vec<u16> {
    let near = values.iter().flat_map(|&value| [-1, 0, 1].map(|off| (value as u16).wrapping_add_signed(off)));
    let mut values: Vec<u16> = near.chain(limits.iter().copied()).collect();
    values.sort();
    values.dedup();
    values
}

/// A number that lies while the others are as they were.
fn single_numbers(name: &str, recording: &Recording, sink: &mut Sink) {
    let Some(salvaged) = salvage(&recording.bytes()) else { return };
    let (file, new) = (recording.bytes(), salvaged.file());
    let events = [recording.events.len(), salvaged.recording.events.len()];
    for count in around(&events, &[0, 255, 256, 8_190, 8_191, 8_192, 0x8000, u16::MAX]) {
        let file = with_header(recording, |header| header.event_count = count);
        put(sink, Group::SalvageHeaders, format!("{name}, {count} events"), file);
    }
    for first in [0, 7, 9, 15, 16, 0x0108, 0x0800, u16::MAX] {
        let file = with_header(recording, |header| header.first_event = first);
        put(sink, Group::SalvageHeaders, format!("{name}, first event at {first}"), file);
    }
    let lengths = [file.len(), new.len(), file.len() - recording.page_bytes.len()];
    for total in around(&lengths, &[0, 7, 8, file.len() as u16 + 8, 0x8000, u16::MAX]) {
        let file = with_header(recording, |header| header.total = total);
        put(sink, Group::SalvageHeaders, format!("{name}, total {total}"), file);
    }
}

/// The header overwritten, whole or but for the page offset; its numbers with their bytes exchanged, likewise.
fn overwritten(name: &str, recording: &Recording, sink: &mut Sink) {
    for value in [0, 8, 0x5A, 0xFF] {
        let number = u16::from_be_bytes([value; 2]);
        let (mut whole, mut but_offset) = (recording.bytes(), recording.bytes());
        whole[..8].fill(value);
        but_offset[..4].fill(value);
        but_offset[6..8].fill(value);
        put(sink, Group::SalvageHeaders, format!("{name}, a header of {number:04X}h"), whole);
        let name = format!("{name}, a header of {number:04X}h but for the page offset");
        put(sink, Group::SalvageHeaders, name, but_offset);
    }
    let exchanged = with_header(recording, |header| {
        header.event_count = header.event_count.swap_bytes();
        header.first_event = header.first_event.swap_bytes();
        header.total = header.total.swap_bytes();
    });
    put(sink, Group::SalvageHeaders, format!("{name}, bytes exchanged but in the page offset"), exchanged);
}
