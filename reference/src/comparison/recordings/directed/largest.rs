//! The largest recordings, and files too long for their own total.

use crate::codes::page_code;
use crate::comparison::page_builder::{set_length, SetPage};
use crate::comparison::recordings::builder::{every_kind, file_of, recording_of, with_header};
use crate::comparison::recordings::case::{put, Group, Sink};
use crate::comparison::session::{security_out, write};
use crate::recording::{events_end, Event, Recording, LONGEST, MOST_EVENTS};
use crate::stream::{kind, Command};

pub fn recordings(sink: &mut Sink) {
    most_events(sink);
    most_page_bytes(sink);
    many_draws(sink);
    too_long(sink);
}

/// 8,190 events that do something, with as few page bytes as there is room for: none to seven.
fn many_events() -> Vec<Event> {
    let small = every_kind().events.into_iter().filter(|event| event.kind != kind::OUT);
    let pages = [0, 4, 7].map(|page_length| Event {
        kind: kind::OUT,
        nexus: 2,
        argument: page_code::SET_DATA_ENCRYPTION,
        page_length,
        ..Event::default()
    });
    small.chain(pages).cycle().take(MOST_EVENTS).collect()
}

/// The largest number of events; and one of them, first or last, wrong.
fn most_events(sink: &mut Sink) {
    let recording = Recording { events: many_events(), page_bytes: vec![0; 7] };
    put(sink, Group::Largest, "8,190 events, 65,535 bytes", recording.bytes());
    let demounts = vec![Event { kind: kind::DEMOUNT, ..Event::default() }; MOST_EVENTS];
    put(sink, Group::Largest, "8,190 events, no page bytes", file_of(demounts.clone(), Vec::new()));
    for (name, at) in [("first", 0), ("last", MOST_EVENTS - 1)] {
        let mut events = demounts.clone();
        events[at].kind = 12;
        put(sink, Group::KindAbove11, format!("kind 12 {name} of 8,190"), file_of(events, Vec::new()));
        let mut events = recording.events.clone();
        let out = Event { kind: kind::OUT, page_offset: 1, page_length: 7, ..Event::default() };
        events[at] = out;
        put(
            sink,
            Group::PagePastEnd,
            format!("a page past the end {name} of 8,190"),
            file_of(events, vec![0; 7]),
        );
    }
}

/// One event or two, and a page of all the bytes that are left; no event at all.
fn most_page_bytes(sink: &mut Sink) {
    let room = LONGEST - events_end(0);
    put(sink, Group::Largest, "no events, 65,527 page bytes", file_of(Vec::new(), vec![0x5A; room]));
    for (name, page) in [("PUBLIC", SetPage::public(true)), ("LOCAL", SetPage::k())] {
        for events in [1, 2] {
            let count = LONGEST - events_end(events);
            let mut page_bytes = page.bytes();
            page_bytes.resize(count, 0x5A);
            set_length(&mut page_bytes);
            let out = Event {
                kind: kind::OUT,
                nexus: 3,
                argument: page_code::SET_DATA_ENCRYPTION,
                page_length: count as u16,
                ..Event::default()
            };
            let write = Event { kind: kind::WRITE, nexus: 3, ..Event::default() };
            let file = file_of([out, write][..events].to_vec(), page_bytes);
            put(sink, Group::Largest, format!("a {name} page of {count} bytes"), file);
        }
    }
}

/// Thousands of draws without a power-on: LOCAL sets that put out one another. Then some are locked, and each nexus
/// asks what is left.
fn many_draws(sink: &mut Sink) {
    let unlocked = SetPage::k_unlocked().bytes();
    let mut commands: Vec<Command> =
        (0..=255).cycle().take(8000).map(|turn| security_out(turn % 16, unlocked.clone())).collect();
    commands.extend((0..3).map(|nexus| security_out(nexus, SetPage::k().bytes())));
    commands.push(security_out(15, SetPage::all().bytes()));
    commands.extend((0..16).flat_map(|nexus| [write(nexus, true), write(nexus, false)]));
    put(sink, Group::Largest, "a session of many draws", recording_of(&commands).bytes());
}

/// 65,536 bytes and more: no total can be the length, whether it is the length's low part or another number.
fn too_long(sink: &mut Sink) {
    let long = |events: usize, length: usize| {
        let demounts = vec![Event { kind: kind::DEMOUNT, ..Event::default() }; events];
        let page_bytes = vec![0; length - events_end(events)];
        Recording { events: demounts, page_bytes }
    };
    for length in [65_536, 65_537, 65_543, 65_544, 65_552, 70_000, 131_071, 131_072, 131_080, 200_000] {
        let file = long(1, length).bytes();
        put(sink, Group::TooLong, format!("{length} bytes, total {}", length % 65_536), file);
    }
    for length in [65_536, 65_544, 131_072] {
        let file = with_header(&long(1, length), |header| header.total = u16::MAX);
        put(sink, Group::TooLong, format!("{length} bytes, total 65,535"), file);
    }
    for events in [MOST_EVENTS + 1, MOST_EVENTS + 2, MOST_EVENTS + 3] {
        let file = long(events, events_end(events)).bytes();
        put(sink, Group::TooLong, format!("{events} events"), file);
    }
    let recording = Recording { events: many_events(), page_bytes: vec![0; 7] };
    put(sink, Group::TooLong, "the largest recording and a byte", [recording.bytes(), vec![0]].concat());
}
