//! The recordings that are tried, with what is asked about them.

use crate::comparison::recordings::builder::recording_of;
use crate::comparison::recordings::case::{Case as RecordingCase, Group};
use crate::recording::Header;
use crate::stream::Command;

/// The most events of a sound recording that is tried: the reasons of all writes that can be tried stay cheap.
pub const MOST_EVENTS: usize = 30;

/// A number of events, as it is asked for.
#[derive(Clone, Copy, PartialEq, Eq, PartialOrd, Ord, Debug)]
pub enum Events {
    /// So many more than the recording has.
    PastCount(u64),
    Digits(&'static str),
}

/// What the other program is asked about a recording.
#[derive(Clone, Copy, PartialEq, Eq, PartialOrd, Ord, Debug)]
pub enum Way {
    /// Every write that can be tried.
    Every,
    /// The refused writes that it has.
    Writes,
    /// A write of a nexus.
    One { events: Events, nexus: &'static str, support: &'static str },
}

impl Way {
    /// What is asked about every recording but the longest.
    pub const OF_ALL: [Way; 2] = [Way::Every, Way::Writes];

    /// The arguments, for a file.
    pub fn arguments(&self, file: &[u8]) -> Vec<String> {
        match self {
            Way::Every => vec!["--every".to_string()],
            Way::Writes => vec!["--writes".to_string()],
            Way::One { events, nexus, support } => {
                let count = Header::read(file).map_or(0, |header| header.event_count);
                let events = match events {
                    Events::PastCount(more) => (u64::from(count) + more).to_string(),
                    Events::Digits(digits) => digits.to_string(),
                };
                vec![events, nexus.to_string(), support.to_string()]
            }
        }
    }
}

/// A recording to be tried, and what is asked about it.
#[derive(Clone, Debug)]
pub struct Case {
    pub recording: RecordingCase,
    pub ways: Vec<Way>,
}

/// Where they go.
pub type Sink<'sink> = dyn FnMut(Case) + 'sink;

/// Hands a file over.
pub fn put_file(sink: &mut Sink, group: Group, name: impl Into<String>, file: Vec<u8>, ways: Vec<Way>) {
    sink(Case { recording: RecordingCase { group, name: name.into(), file }, ways });
}

/// Hands the recording of a session over.
pub fn put(sink: &mut Sink, group: Group, name: impl Into<String>, commands: &[Command]) {
    assert!(commands.len() <= MOST_EVENTS, "a session is short");
    put_file(sink, group, name, recording_of(commands).bytes(), Way::OF_ALL.to_vec());
}
