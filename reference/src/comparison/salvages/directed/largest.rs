//! The most events that there is room for, all sound or one of them wrong, and the longest new files.

use super::{demount, wrong};
use crate::comparison::recordings::builder::{change_header, file_of, out, wrong_event};
use crate::comparison::recordings::case::{put, Group, Sink};
use crate::recording::{events_end, Event, FileRule, LONGEST, MOST_EVENTS};

pub fn recordings(sink: &mut Sink) {
    most_events(sink);
    one_wrong(sink);
    headers_that_lie(sink);
    most_page_bytes(sink);
}

/// 8,190 or 8,189 sound events, with as many page bytes as there is room for.
fn most_events(sink: &mut Sink) {
    for events in [MOST_EVENTS - 1, MOST_EVENTS] {
        for page_bytes in [0, 1, 6, LONGEST - events_end(events)] {
            let file = file_of(vec![demount(); events], vec![0x5A; page_bytes]);
            put(sink, Group::SalvageLargest, format!("{events} events, {page_bytes} page bytes"), file);
        }
    }
    let mut events = vec![demount(); MOST_EVENTS];
    events[MOST_EVENTS - 1] = out(3, 0, 7);
    put(sink, Group::SalvageLargest, "a page of 7 bytes last", file_of(events.clone(), vec![0x5A; 7]));
    put(sink, Group::SalvageLargest, "a page of 7 bytes last, cut by one", file_of(events, vec![0x5A; 6]));
}

/// The largest file with one wrong event, near both ends and in the middle.
fn one_wrong(sink: &mut Sink) {
    for at in [0, 1, 2, 254, 255, 256, 257, 4_093, 4_094, 4_095, 4_096, 7_932, 8_187, 8_188, 8_189] {
        put_with(sink, at, wrong(), "wrong", 7);
    }
    for at in [0, 1, 8_188, 8_189] {
        put_with(sink, at, wrong_event(FileRule::PagePastEnd), "a page past the end", 7);
        put_with(sink, at, wrong(), "wrong", 0);
    }
    let wrong_all = file_of(vec![wrong(); MOST_EVENTS], Vec::new());
    put(sink, Group::SalvageLargest, "8,190 wrong events", wrong_all);
}

/// The largest file with one event changed.
fn put_with(sink: &mut Sink, at: usize, event: Event, name: &str, page_bytes: usize) {
    let mut events = vec![demount(); MOST_EVENTS];
    events[at] = event;
    let file = file_of(events, vec![0x5A; page_bytes]);
    put(sink, Group::SalvageLargest, format!("{name} at {at}, {page_bytes} page bytes"), file);
}

/// The largest file, its header's numbers lying.
fn headers_that_lie(sink: &mut Sink) {
    let sound = file_of(vec![demount(); MOST_EVENTS], vec![0x5A; 7]);
    for count in [0, 1, 8_189, 8_191, 8_192, u16::MAX] {
        let mut file = sound.clone();
        change_header(&mut file, |header| header.event_count = count);
        put(sink, Group::SalvageLargest, format!("{count} events told"), file);
    }
    for total in [0, 8, 65_528, 65_534] {
        let mut file = sound.clone();
        change_header(&mut file, |header| header.total = total);
        put(sink, Group::SalvageLargest, format!("a total of {total} told"), file);
    }
    for length in [65_527, 65_528, 65_529, 65_534] {
        put(sink, Group::SalvageLargest, format!("{length} bytes left"), sound[..length].to_vec());
    }
}

/// New files of nearly 65,535 bytes: of few events, of which the last is wrong or none is.
fn most_page_bytes(sink: &mut Sink) {
    for events in 0..=3 {
        let count = LONGEST - events_end(events);
        let mut list = vec![demount(); events];
        put(
            sink,
            Group::SalvageLargest,
            format!("{count} page bytes"),
            file_of(list.clone(), vec![0x5A; count]),
        );
        if let Some(last) = list.last_mut() {
            *last = wrong();
            let file = file_of(list, vec![0x5A; count]);
            put(sink, Group::SalvageLargest, format!("{count} page bytes, the last event wrong"), file);
        }
    }
}
