//! The recordings that are tried, each at a rate.

use crate::comparison::recordings::builder::recording_of;
use crate::comparison::recordings::case::{Case as RecordingCase, Group};
use crate::stream::Command;

/// A recording to be tried, and the rate as the other program gets it.
#[derive(Clone, Debug)]
pub struct Case {
    pub recording: RecordingCase,
    pub rate: String,
}

/// Where they go.
pub type Sink<'sink> = dyn FnMut(Case) + 'sink;

/// Hands a file over.
pub fn put_file(sink: &mut Sink, group: Group, name: impl Into<String>, file: Vec<u8>, rate: &str) {
    let recording = RecordingCase { group, name: name.into(), file };
    sink(Case { recording, rate: rate.to_string() });
}

/// Hands the recording of a session over.
pub fn put(sink: &mut Sink, group: Group, name: impl Into<String>, commands: &[Command], rate: &str) {
    put_file(sink, group, name, recording_of(commands).bytes(), rate);
}
