//! An event that is wrong by each rule that its kind can break, alone, first, between others and last.

use super::demount;
use crate::comparison::recordings::builder::{
    every_kind, file_of, made_wrong, out, supported_write, wrong_event,
};
use crate::comparison::recordings::case::{put, Group, Sink};
use crate::comparison::salvages::reached::rules_of;
use crate::recording::{Event, FileRule};

/// As many page bytes as a page offset or a page length of an event that has none may ask for.
const PAGE_BYTES: usize = 60;

pub fn recordings(sink: &mut Sink) {
    by_kind_and_rule(sink);
    every_kind_kept_last(sink);
    by_two_rules(sink);
    by_values_of_a_byte(sink);
}

/// Each kind's rules.
fn by_kind_and_rule(sink: &mut Sink) {
    for event in every_kind().events {
        let rules = rules_of(event.kind).into_iter().chain([FileRule::Kind]);
        for rule in rules {
            put_in_each_position(sink, &format!("kind {}, {rule:?}", event.kind), made_wrong(event, rule));
        }
    }
}

/// A wrong event in files of sound ones, every kind of them.
fn put_in_each_position(sink: &mut Sink, name: &str, wrong: Event) {
    let sound = every_kind().events;
    let (before, after) = sound.split_at(usize::from(wrong.kind) % sound.len());
    let positions = [
        ("alone", vec![wrong]),
        ("first", [&[wrong], &sound[..]].concat()),
        ("between", [before, &[wrong], after, &[demount()]].concat()),
        ("last", [&sound[..], &[wrong]].concat()),
    ];
    for (position, events) in positions {
        let file = file_of(events, vec![0x5A; PAGE_BYTES]);
        put(sink, Group::SalvageEvents, format!("{name}, {position}"), file);
    }
}

/// Each kind as the last that is kept, before each rule in turn.
fn every_kind_kept_last(sink: &mut Sink) {
    for (event, rule) in every_kind().events.into_iter().zip(FileRule::OF_EVENTS.into_iter().cycle()) {
        let file = file_of(vec![event, wrong_event(rule), event], vec![0x5A; PAGE_BYTES]);
        put(sink, Group::SalvageEvents, format!("{rule:?} after kind {}", event.kind), file);
    }
}

/// Values of one byte of a field, where the rule is about the whole field: support flags, and pages past their end.
fn by_values_of_a_byte(sink: &mut Sink) {
    let flags = [0x00FF, 0x0100, 0x0101, 0x8000, 0xFF00, 0xFF01];
    let writes = flags.map(|argument| Event { argument, ..supported_write(3) });
    let pages = [(128, 0), (255, 0), (256, 0), (0, 128), (0, 255), (0, 256), (0x0100, 1), (1, 0x0100)];
    for event in writes.into_iter().chain(pages.map(|(offset, length)| out(3, offset, length))) {
        let Event { argument, page_offset, page_length, .. } = event;
        let name = format!("argument {argument}, page of {page_length} bytes at {page_offset}");
        put(sink, Group::SalvageEvents, name, file_of(vec![demount(), event], vec![0x5A; PAGE_BYTES]));
    }
}

/// Two wrong events, by each two rules, with a sound one between them: the first of them ends the run.
fn by_two_rules(sink: &mut Sink) {
    for first in FileRule::OF_EVENTS {
        for second in FileRule::OF_EVENTS {
            let events = vec![demount(), wrong_event(first), demount(), wrong_event(second)];
            let name = format!("{first:?}, then {second:?}");
            put(sink, Group::SalvageEvents, name, file_of(events, vec![0x5A; PAGE_BYTES]));
        }
    }
}
