//! The parts of a replayer, by the library, that the faults put together wrongly.

use reference::comparison::recordings::Given;
use reference::comparison::session::load;
use reference::record::Record;
use reference::record_bytes;
use reference::recording::{answer_bytes, broken_rules, parts, Event, FileRule, Header, Recording};
use reference::stream::{Command, Drive, Reply};
use std::path::PathBuf;

/// The refusal of a file.
pub fn refused() -> Given {
    refused_but(Vec::new())
}

/// A refusal with something on standard output.
pub fn refused_but(output: Vec<u8>) -> Given {
    Given { output, errors: b"22 the recording is refused\n".to_vec() }
}

/// Answers, or the record.
pub fn taken((answers, record): (Vec<u8>, Record), wants_record: bool) -> Given {
    let output = if wants_record { record_bytes::give(&record) } else { answers };
    Given { output, errors: Vec::new() }
}

/// The replay of what a reader made of the file.
pub fn shown(recording: Option<Recording>, wants_record: bool) -> Given {
    recording.map_or_else(refused, |recording| taken(play(&recording), wants_record))
}

/// A replay of calls that may be changed before they are made, and replies before they are written.
pub fn played(
    recording: &Recording,
    mut call: impl FnMut(usize, &Event) -> Option<Command>,
    reply: impl Fn(&mut Reply),
) -> (Vec<u8>, Record) {
    let mut drive = Drive::new();
    let mut answers = Vec::new();
    for (number, event) in recording.events.iter().enumerate() {
        let Some(command) = call(number, event) else {
            answers.extend([0; 4]);
            continue;
        };
        let mut given = drive.answer(&command);
        reply(&mut given);
        answers.extend(answer_bytes(&given));
    }
    (answers, drive.controller().record.clone())
}

/// The right replay of events.
pub fn play(recording: &Recording) -> (Vec<u8>, Record) {
    played(recording, |_, event| Some(recording.command(event)), |_| {})
}

/// The recording of a file that breaks these rules only. Pages past the end go on with zeros.
pub fn sparing(file: &[u8], spared: &[FileRule]) -> Option<Recording> {
    if !broken_rules(file).iter().all(|rule| spared.contains(rule)) {
        return None;
    }
    let (events, page_bytes) = parts(&Header::read(file)?, file)?;
    let page_end = |event: &Event| usize::from(event.page_offset) + usize::from(event.page_length);
    let end = events.iter().map(page_end).max().unwrap_or(0).max(page_bytes.len());
    let mut page_bytes = page_bytes.to_vec();
    page_bytes.resize(end, 0);
    Some(Recording { events, page_bytes })
}

/// The recording of a sound file, unless it is refused for something that isn't wrong.
pub fn refusing(file: &[u8], refused: impl Fn(&Recording) -> bool) -> Option<Recording> {
    Recording::read(file).filter(|recording| !refused(recording))
}

/// The same for an event.
pub fn refusing_event(file: &[u8], refused: impl Fn(&Event) -> bool) -> Option<Recording> {
    refusing(file, |recording| recording.events.iter().any(&refused))
}

/// Where the replayer that goes on from the record before keeps it.
pub fn state_path() -> PathBuf {
    PathBuf::from(env!("CARGO_TARGET_TMPDIR")).join("record_of_the_replay_before")
}

/// A drive that goes on from a record.
pub fn drive_with(record: &Record) -> Drive {
    let mut drive = Drive::new();
    drive.answer(&load(record));
    drive
}
