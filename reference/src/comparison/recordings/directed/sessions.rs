//! Sessions as recordings: P1 to P10 one by one; then those of the drive's comparison that an event can stand for
//! each command of, and page forms, many to a recording. A session starts with power-on, wherever it stands.

use crate::codes::{decryption, scope};
use crate::comparison::directed;
use crate::comparison::page_builder::{descriptor, Edit, Family, SetPage};
use crate::comparison::recordings::builder::{is_recordable, recording_of, Builder};
use crate::comparison::recordings::case::{put, Group, Sink};
use crate::comparison::session::{
    event, event_of, power_on, read, security_in, security_out, vendor_release, write, Session,
};
use crate::stream::{kind, Command};

pub fn recordings(sink: &mut Sink) {
    directed::examples(&mut |session| {
        // a replay starts from power-on without an event of it
        put(sink, Group::Examples, session.name, recording_of(&session.commands[1..]).bytes());
    });
    let mut packer = Packer { builder: Builder::default(), number: 0, sink };
    directed::sessions_for_recordings(&mut |session| packer.add(&session));
    lengths(&mut |session| packer.add(&session));
    edits(&mut |session| packer.add(&session));
    releases(&mut |session| packer.add(&session));
    packer.hand_over();
}

/// Puts sessions into as few recordings as they fit.
struct Packer<'sink, 'parts> {
    builder: Builder,
    number: usize,
    sink: &'parts mut Sink<'sink>,
}

impl Packer<'_, '_> {
    /// Adds a session from power-on, if events can stand for its commands and it fits a recording at all.
    fn add(&mut self, session: &Session) {
        let starts = session.commands.first().is_some_and(|command| command.kind == kind::POWER_ON);
        if !starts || !session.commands.iter().all(is_recordable) || self.builder.add(&session.commands) {
            return;
        }
        self.hand_over();
        self.builder.add(&session.commands);
    }

    /// The sessions so far become a recording.
    fn hand_over(&mut self) {
        let recording = self.builder.take();
        if !recording.events.is_empty() {
            put(self.sink, Group::Sessions, format!("number {}", self.number), recording.bytes());
            self.number += 1;
        }
    }
}

/// Where a session goes.
type SessionSink<'sink> = dyn FnMut(Session) + 'sink;

/// A page after K, or for ALL after an ALL set with MIXED, each on its own drive.
fn page_after_set(scope: u8, page: Vec<u8>) -> Session {
    let set = match scope {
        scope::ALL => SetPage { decryption: decryption::MIXED, ..SetPage::all() },
        _ => SetPage::k(),
    };
    let commands = vec![
        power_on(),
        security_out(3, set.bytes()),
        security_out(3, page),
        write(3, true),
        write(4, false),
    ];
    Session { name: "page forms".to_string(), commands }
}

/// Every family of pages in lengths around those that it can have.
fn lengths(sink: &mut SessionSink) {
    for family in Family::EVERY {
        for length in 0..=120 {
            sink(page_after_set(family.page().scope, family.page_of(length)));
        }
    }
}

/// Every edit of a Set page with two descriptors, and of a supplemental key; one whose only fault is its key's length.
fn edits(sink: &mut SessionSink) {
    let list = [descriptor(0, 9, 9), descriptor(1, 3, 3)].concat();
    let bases = [
        SetPage { list: list.clone(), ..SetPage::k() },
        SetPage { list, ..SetPage::all() },
        SetPage::of_modes(scope::LOCAL, 1, 1),
        SetPage::supplemental(scope::LOCAL, decryption::DECRYPT, 7),
        SetPage::supplemental(scope::ALL, decryption::MIXED, 9),
    ];
    for base in bases {
        for edit in Edit::of_set_page() {
            let mut page = base.bytes();
            edit.apply(&mut page, 20 + base.key.len());
            sink(page_after_set(base.scope, page));
        }
    }
    for length in [0, 31, 33] {
        let key = vec![7; length];
        let page = SetPage { key, ..SetPage::supplemental(scope::LOCAL, decryption::DECRYPT, 7) };
        sink(page_after_set(scope::LOCAL, page.bytes()));
    }
}

/// Every event over five sets that it may release, of nexuses 0 (ALL) and 1 to 4; then each of them, and nexus 5, finds
/// by each kind of call what is pending.
fn releases(sink: &mut SessionSink) {
    let list = [descriptor(0, 9, 9), descriptor(1, 3, 3)].concat();
    let local = SetPage { rdmc: 3, ckorp: true, ckorl: true, list, ..SetPage::k() };
    let all = SetPage { scope: scope::ALL, ..local.clone() };
    let mut start = vec![power_on(), security_in(5, 0x0020, 0), security_out(0, all.bytes())];
    start.extend((1..=4).map(|nexus| security_out(nexus, local.bytes())));
    let mut events: Vec<Command> = (kind::LOGICAL_UNIT_RESET..=kind::MICROCODE).map(event).collect();
    events.extend([event_of(kind::NEXUS_RESERVATION_LOSS, 2), event_of(kind::PREEMPT, 2), power_on()]);
    events.extend((0..=5).map(vendor_release));
    let calls = |nexus| {
        [
            security_in(nexus, 0x0020, 0),
            security_out(nexus, local.bytes()),
            write(nexus, true),
            read(nexus, 1, 0),
        ]
    };
    for event in events {
        for first in 0..4 {
            let mut commands = start.clone();
            commands.push(event.clone());
            for nexus in 0..=5 {
                let mut calls = calls(nexus);
                calls.rotate_left(first);
                commands.extend(calls);
            }
            sink(Session { name: "releases".to_string(), commands });
        }
    }
}
