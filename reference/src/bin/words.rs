//! Tells a replayed recording in words: each call, the answer that replay gave it and, for a page answered 8, the wrong
//! field, for a refused write the reason.
//!
//! `words FILE REASONS PROGRAM [ARGUMENT ...] < answers`: REASONS has a line for each refused write, its position and the
//! sentence. PROGRAM is the drive on a pipe, which is started where an answer is 8.

#![forbid(unsafe_code)]

#[path = "support/files.rs"]
mod files;
#[path = "support/pipe.rs"]
mod pipe;
#[path = "support/standard.rs"]
mod standard;

use files::{read, read_recording};
use pipe::Pipe;
use reference::recording::{Recording, ANSWER_BYTES};
use reference::script::{told_with, Fields, Sentences};
use reference::stream::Reply;
use standard::{code, print, read_input, Ended};
use std::ffi::{OsStr, OsString};
use std::process::ExitCode;

const USAGE: &str = "usage: words FILE REASONS PROGRAM [ARGUMENT ...] < ANSWERS
tell each call of the recording FILE with its answer, four bytes a call, each page answered 8 with the field that is
wrong by PROGRAM, the drive on a pipe, and each refused write with the sentence that REASONS has for it";

fn main() -> ExitCode {
    let arguments: Vec<OsString> = std::env::args_os().skip(1).collect();
    code(match arguments.as_slice() {
        [option] if option == "-h" || option == "--help" => print(format!("{USAGE}\n")),
        [file, reasons, program @ ..] if !is_option(file) && !is_option(reasons) && !program.is_empty() => {
            tell(file, reasons, program)
        }
        _ => Err(Ended::unusable(USAGE.to_string())),
    })
}

/// Whether an argument is no name: `-` isn't either, as standard input has the answers.
fn is_option(argument: &OsStr) -> bool {
    argument.as_encoded_bytes().starts_with(b"-")
}

/// Prints a line for each event.
fn tell(file: &OsStr, reasons: &OsStr, program: &[OsString]) -> Result<(), Ended> {
    let recording = read_recording(file)?;
    let reasons = String::from_utf8_lossy(&read(reasons)?).into_owned();
    let answers = read_input("the answers")?;
    let (count, events) = (answers.len(), recording.events.len());
    if count != ANSWER_BYTES * events {
        return Err(Ended::refused(format!(
            "{count} bytes of answers for {events} events, which have {ANSWER_BYTES} each"
        )));
    }
    let sentences = Sentences::read(&reasons, &recording, &answers).map_err(Ended::refused)?;
    let fields =
        Fields::asked(&recording, &answers, || replies(&recording, program)).map_err(Ended::refused)?;
    print(told_with(&recording, &answers, &fields, &sentences))
}

/// What the drive replies to each event, from power-on.
fn replies(recording: &Recording, program: &[OsString]) -> Result<Vec<Reply>, String> {
    let mut drive = Pipe::start(program)?;
    let (replies, all_came) = recording.replies(|command| drive.ask(command));
    all_came.map(|()| replies)
}
