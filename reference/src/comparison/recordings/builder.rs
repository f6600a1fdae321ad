//! Recordings as the comparison makes them: from the commands of sessions, and files with something changed.

use crate::codes::{page_code, PROTOCOL};
use crate::comparison::page_builder::SetPage;
use crate::comparison::session::{event, event_of, read, security_in, security_out, vendor_release, write};
use crate::recording::{events_end, fields_of, Event, FileRule, Header, Recording};
use crate::recording::{HEADER_BYTES, LONGEST, MOST_EVENTS};
use crate::stream::{kind, Command};
use std::collections::{HashMap, HashSet};

/// Whether an event can stand for a command.
pub fn is_recordable(command: &Command) -> bool {
    match command.kind {
        kind::IN | kind::OUT => command.protocol == PROTOCOL,
        kind::WRITE => command.argument <= 1,
        kind => fields_of(kind).is_some(),
    }
}

/// A recording in the making. Equal pages share their bytes.
#[derive(Default)]
pub struct Builder {
    recording: Recording,
    pages: HashMap<Vec<u8>, usize>,
}

impl Builder {
    /// Adds the commands of a session, all or, where the file would be too long, none.
    pub fn add(&mut self, commands: &[Command]) -> bool {
        let outs = commands.iter().filter(|command| command.kind == kind::OUT);
        let pages: HashSet<&[u8]> = outs.map(|command| &command.data[..]).collect();
        let new = pages.iter().filter(|page| !self.pages.contains_key(**page));
        let pages: usize = new.map(|page| page.len()).sum();
        let events = self.recording.events.len() + commands.len();
        if events_end(events) + self.recording.page_bytes.len() + pages > LONGEST {
            return false;
        }
        commands.iter().for_each(|command| self.add_one(command));
        true
    }

    /// Adds a command that an event can stand for.
    fn add_one(&mut self, command: &Command) {
        let fields = fields_of(command.kind).expect("a kind of event");
        let mut event = Event { kind: command.kind, ..Event::default() };
        if fields.nexus {
            event.nexus = command.nexus;
        }
        if fields.argument {
            event.argument = command.argument;
        }
        if fields.page {
            let end = self.recording.page_bytes.len();
            let offset = *self.pages.entry(command.data.clone()).or_insert(end);
            if offset == end {
                self.recording.page_bytes.extend(&command.data);
            }
            (event.page_offset, event.page_length) = (offset as u16, command.data.len() as u16);
        }
        self.recording.events.push(event);
    }

    /// The recording so far; the next starts anew.
    pub fn take(&mut self) -> Recording {
        std::mem::take(self).recording
    }
}

/// The recording of some commands.
pub fn recording_of(commands: &[Command]) -> Recording {
    let mut builder = Builder::default();
    assert!(builder.add(commands), "the commands fit a recording");
    builder.take()
}

/// No events and no page bytes: 00 00 00 08 00 08 00 08.
pub fn no_events() -> Recording {
    Recording::default()
}

/// The request's file: 00 01 00 08 00 10 00 10 05 00 00 00 00 00 00 00.
pub fn requests() -> Recording {
    recording_of(&[event(kind::DEMOUNT)])
}

/// One event of every kind, nearly all of them with something to change: the set that nexus 3 sent with K.
pub fn every_kind() -> Recording {
    recording_of(&[
        event(kind::POWER_ON),
        security_out(3, SetPage::k().bytes()),
        security_in(3, 0x0020, 0),
        write(3, true),
        read(3, 1, 0),
        event_of(kind::NEXUS_RESERVATION_LOSS, 3),
        event(kind::DEVICE_RESERVATION_LOSS),
        event(kind::DEMOUNT),
        event_of(kind::PREEMPT, 5),
        event(kind::LOGICAL_UNIT_RESET),
        vendor_release(1),
        event(kind::MICROCODE),
    ])
}

/// The recordings that are made wrong, with their names.
pub fn bases() -> [(&'static str, Recording); 3] {
    [("no events", no_events()), ("the request's file", requests()), ("every kind", every_kind())]
}

/// A recording's file with another header.
pub fn with_header(recording: &Recording, change: impl Fn(&mut Header)) -> Vec<u8> {
    let mut file = recording.bytes();
    change_header(&mut file, change);
    file
}

/// Changes a file's header; a file under 8 bytes has none.
pub fn change_header(file: &mut [u8], change: impl Fn(&mut Header)) {
    if let Some(mut header) = Header::read(file) {
        change(&mut header);
        file[..HEADER_BYTES].copy_from_slice(&header.bytes());
    }
}

/// The file of some events over some page bytes, put right by its header but not by its events.
pub fn file_of(events: Vec<Event>, page_bytes: Vec<u8>) -> Vec<u8> {
    Recording { events, page_bytes }.bytes()
}

/// OUT of a nexus.
pub fn out(nexus: u8, page_offset: u16, page_length: u16) -> Event {
    Event { kind: kind::OUT, nexus, argument: page_code::SET_DATA_ENCRYPTION, page_offset, page_length }
}

/// A write with support.
pub fn supported_write(nexus: u8) -> Event {
    Event { kind: kind::WRITE, nexus, argument: 1, ..Event::default() }
}

/// Pages that overlap, and a PUBLIC page of 24 bytes, of which the last 20 are a PUBLIC page as well.
pub fn overlapping_pages() -> (Vec<Event>, Vec<u8>) {
    let mut nested = vec![0; 24];
    nested[..4].copy_from_slice(&[0, 0x10, 0, 20]);
    nested[4..8].copy_from_slice(&[0, 0x10, 0, 16]);
    nested[8] = 1;
    let events = vec![
        out(1, 0, 24),
        supported_write(1),
        out(2, 4, 20),
        supported_write(2),
        out(3, 2, 20),
        out(4, 0, 23),
    ];
    (events, nested)
}

/// A recording's file with this rule broken and no other; a rule of events by one at its end.
pub fn breaking(rule: FileRule, sound: &Recording) -> Vec<u8> {
    match rule {
        FileRule::Under8Bytes => sound.bytes()[..7].to_vec(),
        FileRule::Total => with_header(sound, |header| header.total -= 1),
        FileRule::FirstEvent => with_header(sound, |header| header.first_event += 8),
        FileRule::PageBytesStart => with_header(sound, |header| header.page_bytes += 8),
        FileRule::EventsPastEnd => with_header(sound, |header| {
            header.event_count = MOST_EVENTS as u16;
            header.page_bytes = events_end(MOST_EVENTS) as u16;
        }),
        _ => file_of([&sound.events[..], &[wrong_event(rule)]].concat(), sound.page_bytes.clone()),
    }
}

/// An event that breaks this rule of events and no other.
pub fn wrong_event(rule: FileRule) -> Event {
    let event = match rule {
        FileRule::UnusedNexus | FileRule::UnusedArgument => requests().events[0],
        FileRule::PagePastEnd => out(3, 0, 0),
        _ => supported_write(3),
    };
    made_wrong(event, rule)
}

/// An event that breaks this rule of events besides, if its kind can.
pub fn made_wrong(event: Event, rule: FileRule) -> Event {
    match rule {
        FileRule::Kind => Event { kind: 12, ..event },
        FileRule::SupportFlag => Event { argument: 2, ..event },
        FileRule::UnusedNexus => Event { nexus: 3, ..event },
        FileRule::UnusedArgument => Event { argument: 1, ..event },
        FileRule::UnusedPageOffset => Event { page_offset: 1, ..event },
        FileRule::UnusedPageLength => Event { page_length: 1, ..event },
        FileRule::PagePastEnd => Event { page_length: u16::MAX, ..event },
        _ => unreachable!("the others are rules of the file"),
    }
}
