//! Page bytes that no kept event uses: they stay.

use super::{demount, three_pages, wrong};
use crate::comparison::recordings::builder::{file_of, out};
use crate::comparison::recordings::case::{put, Group, Sink};
use crate::recording::{Event, Recording};
use crate::stream::kind;

pub fn recordings(sink: &mut Sink) {
    around_a_page(sink);
    around_a_byte(sink);
    of_dropped_events(sink);
    like_events(sink);
}

/// Before a page, after it, on both sides, and without any page.
fn around_a_page(sink: &mut Sink) {
    let page_bytes: Vec<u8> = (1..=60).collect();
    let outs =
        [("before", vec![out(3, 8, 52)]), ("after", vec![out(3, 0, 52)]), ("around", vec![out(3, 4, 52)])];
    let twice = [
        ("between", vec![out(3, 0, 20), out(4, 40, 20)]),
        ("unused", vec![demount()]),
        ("alone", Vec::new()),
    ];
    for (name, events) in outs.into_iter().chain(twice) {
        put(sink, Group::SalvageSpareBytes, name, file_of(events.clone(), page_bytes.clone()));
        let with_wrong = [&events[..], &[wrong(), demount()]].concat();
        let file = file_of(with_wrong, page_bytes.clone());
        put(sink, Group::SalvageSpareBytes, format!("{name}, then a wrong event"), file);
        for more in [1, 300] {
            let page_bytes = [&page_bytes[..], &vec![0x5A; more]].concat();
            let name = format!("{name}, {more} more");
            put(sink, Group::SalvageSpareBytes, name, file_of(events.clone(), page_bytes));
        }
    }
}

/// Counts of page bytes and totals around 256, without any event and with one.
fn around_a_byte(sink: &mut Sink) {
    for count in 247..=257 {
        for events in [0, 1] {
            let file = file_of(vec![demount(); events], vec![0x5A; count]);
            put(sink, Group::SalvageSpareBytes, format!("{count} after {events} events"), file);
        }
    }
}

/// The pages of events that are dropped with a wrong one before each of them in turn.
fn of_dropped_events(sink: &mut Sink) {
    let Recording { events, page_bytes } = three_pages();
    for at in 0..=events.len() {
        let mut events = events.clone();
        events.insert(at, wrong());
        let file = file_of(events, page_bytes.clone());
        put(sink, Group::SalvageSpareBytes, format!("three pages, wrong at {at}"), file);
    }
}

/// Page bytes that would be events, sound or wrong, if the run went on.
fn like_events(sink: &mut Sink) {
    let write = Event { kind: kind::WRITE, nexus: 3, argument: 1, ..Event::default() };
    for (name, like) in
        [("sound", demount()), ("a write", write), ("wrong", wrong()), ("zeros", Event::default())]
    {
        for (how, events) in
            [("none", vec![]), ("one", vec![demount()]), ("a wrong one", vec![demount(), wrong()])]
        {
            for times in [1, 2, 3] {
                let file = file_of(events.clone(), like.bytes().repeat(times));
                put(sink, Group::SalvageSpareBytes, format!("{name} {times} times after {how}"), file);
            }
        }
    }
}
