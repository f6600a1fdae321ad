//! 02, request 12: what is kept of a damaged file, and what is reported of it.

use super::damaged::Damaged;
use crate::recording::{event_rules, Event, Header, Recording};

/// What a damaged file comes to.
#[derive(Clone, PartialEq, Eq, Debug)]
pub struct Salvaged {
    /// The kept events over all the page bytes, those of dropped events too.
    pub recording: Recording,
    pub report: Report,
}

/// "the old and new values of each header number and how many whole events before the stored page offset were dropped".
#[derive(Clone, Copy, PartialEq, Eq, Debug)]
pub struct Report {
    pub old: Header,
    pub new: Header,
    pub dropped: usize,
}

/// Salvages a file; nothing where 21 is said.
pub fn salvage(file: &[u8]) -> Option<Salvaged> {
    Damaged::read(file).map(|damaged| damaged.salvaged())
}

impl Damaged<'_> {
    /// "the longest run of them, from the first and ending by the stored page offset, that replay would take": how many
    /// events it has. However long it is, the page bytes are the same; so it ends before the first event that breaks a
    /// rule over them, whatever comes after.
    pub fn longest_run(&self) -> usize {
        let is_taken = |event: &&Event| event_rules(event, self.page_bytes.len()).is_empty();
        self.events.iter().take_while(is_taken).count()
    }

    /// The run in "a new file with counts and offsets put right", and the report.
    pub fn salvaged(&self) -> Salvaged {
        let kept = self.longest_run();
        let recording =
            Recording { events: self.events[..kept].to_vec(), page_bytes: self.page_bytes.to_vec() };
        let new = Header::of(kept, self.page_bytes.len());
        Salvaged { recording, report: Report { old: self.header, new, dropped: self.events.len() - kept } }
    }
}

impl Salvaged {
    /// The new file.
    pub fn file(&self) -> Vec<u8> {
        self.recording.bytes()
    }
}
