//! What became of each write, as the drive's replies say it.

use crate::answer::{Refused, Sense};
use crate::calls::Written;
use crate::claim::{row_of, Cell, Column};
use crate::recording::Recording;
use crate::stream::{kind, Reply};

/// A write event: its position among the events, from 0, its nexus, and what became of it.
#[derive(Clone, Copy, PartialEq, Eq, Debug)]
pub struct Write {
    pub position: usize,
    pub nexus: u8,
    pub fate: Fate,
}

impl Write {
    /// Where it is counted: "in its own nexus's row".
    pub fn cell(&self) -> Cell {
        (row_of(self.nexus), self.fate.column())
    }
}

/// What became of a write.
#[derive(Clone, Copy, PartialEq, Eq, Debug)]
pub enum Fate {
    Written(Written),
    Refused { number: u8, sense: Sense },
}

impl Fate {
    /// What a reply to a write says; nothing where it is no reply to a write.
    fn of(reply: &Reply) -> Option<Fate> {
        let is_refusal = Refused::EVERY.iter().any(|refused| refused.number() == reply.number);
        if is_refusal && reply.data.is_empty() {
            return Some(Fate::Refused { number: reply.number, sense: reply.sense });
        }
        reply.written().map(Fate::Written)
    }

    /// The column in which it is counted.
    pub fn column(self) -> Column {
        Column::of(match self {
            Fate::Written(written) => Some(written),
            Fate::Refused { .. } => None,
        })
    }

    /// Whether it is claimed: "encrypted total times a rate".
    pub fn is_claimed(self) -> bool {
        self.column() == Column::Encrypted
    }
}

/// The writes of a recording, by the drive's replies to its events; what is wrong with a reply that isn't one to a write.
pub fn writes(recording: &Recording, replies: &[Reply]) -> Result<Vec<Write>, String> {
    let events = recording.events.iter().zip(replies).enumerate();
    let writes = events.filter(|(_, (event, _))| event.kind == kind::WRITE);
    writes
        .map(|(position, (event, reply))| match Fate::of(reply) {
            Some(fate) => Ok(Write { position, nexus: event.nexus, fate }),
            None => Err(format!("event {position}: the drive's reply is not one to a write: {reply:?}")),
        })
        .collect()
}
