//! Batches as the comparison sends them: from commands, and with something changed.

use super::page_builder::{set_length, SetPage};
use super::recordings::builder::recording_of;
use super::session;
use crate::recording::{whole_events, Event, Recording, ANSWER_BYTES};
use crate::stream::{kind, Command};

/// A batch by its parts, right or wrong.
#[derive(Clone, PartialEq, Eq, Default, Debug)]
pub struct BatchParts {
    pub events: Vec<Event>,
    /// The bytes of a part event after the last whole one.
    pub left_over: Vec<u8>,
    pub page_bytes: Vec<u8>,
    /// The size of the lent buffer.
    pub room: usize,
}

impl BatchParts {
    /// Some events over some page bytes, with room for just their answers.
    pub fn new(events: Vec<Event>, page_bytes: Vec<u8>) -> Self {
        BatchParts { events, page_bytes, ..BatchParts::default() }.with_just_room()
    }

    /// The events that stand for some commands.
    pub fn of(commands: &[Command]) -> Self {
        let Recording { events, page_bytes } = recording_of(commands);
        BatchParts::new(events, page_bytes)
    }

    /// The parts of a batch that is sent; nothing where its data don't tell them.
    pub fn read(command: &Command) -> Option<Self> {
        let batch = command.batch()?;
        let (events, left_over) = whole_events(batch.events);
        Some(BatchParts {
            events,
            left_over: left_over.to_vec(),
            page_bytes: batch.page_bytes.to_vec(),
            room: usize::from(command.argument),
        })
    }

    /// With a lent buffer of another size.
    pub fn with_room(self, room: usize) -> Self {
        BatchParts { room, ..self }
    }

    /// With room for just the whole events' answers.
    pub fn with_just_room(self) -> Self {
        let room = self.events.len() * ANSWER_BYTES;
        self.with_room(room)
    }

    /// With so many bytes of a part event: those that a demount begins with.
    pub fn with_left_over(self, bytes: usize) -> Self {
        BatchParts { left_over: [5, 0, 0, 0, 0, 0, 0][..bytes].to_vec(), ..self }
    }

    /// With pages that tell their own lengths.
    pub fn with_right_pages(mut self) -> Self {
        for event in self.events.iter().filter(|event| event.kind == kind::OUT) {
            let start = usize::from(event.page_offset);
            if let Some(page) = self.page_bytes.get_mut(start..start + usize::from(event.page_length)) {
                set_length(page);
            }
        }
        self
    }

    /// The events' bytes.
    pub fn event_bytes(&self) -> Vec<u8> {
        let mut bytes: Vec<u8> = self.events.iter().flat_map(Event::bytes).collect();
        bytes.extend(&self.left_over);
        bytes
    }

    /// The command that sends the batch.
    pub fn command(&self) -> Command {
        let events = self.event_bytes();
        self.command_of(&events, events.len() as u16)
    }

    /// The command that sends these bytes of events, said to be so many.
    pub fn command_of(&self, events: &[u8], length: u16) -> Command {
        let data = [&length.to_be_bytes(), events, &self.page_bytes].concat();
        session::batch(data, self.room as u16)
    }
}

/// P7 with two writes before the demount: nexus 3 sends page K, writes, and is told of the demount (4, then 11).
pub fn p7() -> Vec<Command> {
    vec![
        session::security_out(3, SetPage::k().bytes()),
        session::write(3, true),
        session::write(3, false),
        session::event(kind::DEMOUNT),
        session::write(3, true),
        session::write(3, true),
    ]
}
