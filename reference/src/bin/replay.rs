//! The reference's replay: a recording on standard input, four bytes an event on standard output.
//!
//! `replay [--record]`: with `--record` the device record at the end is written in place of the answers. Where the
//! file is refused, standard output stays empty, and a line on standard error begins with the verdict's number.

#![forbid(unsafe_code)]

#[path = "support/standard.rs"]
mod standard;

use reference::record_bytes;
use reference::recording::{replay, Verdict};
use standard::{code, print, read_input, Ended};
use std::process::ExitCode;

fn main() -> ExitCode {
    code(tell(std::env::args().any(|argument| argument == "--record")))
}

/// Writes the answers, or the record.
fn tell(wants_record: bool) -> Result<(), Ended> {
    let replayed = replay(&read_input("the recording")?);
    match replayed.verdict {
        Verdict::Taken if wants_record => print(record_bytes::give(&replayed.record)),
        Verdict::Taken => print(replayed.answers),
        verdict => Err(Ended::refused(format!("{} the recording is refused", verdict.number()))),
    }
}
