//! The reference's salvage: a damaged recording on standard input, the new file on standard output.
//!
//! `salvage [--report]`: with `--report` the old and new header numbers and the count of dropped events are printed in place
//! of the file. Where the recording can't be salvaged, standard output stays empty, and a line on standard error begins
//! with 21.

#![forbid(unsafe_code)]

#[path = "support/standard.rs"]
mod standard;

use reference::salvage::{causes, salvage, Cause, UNSALVAGEABLE};
use standard::{code, print, read_input, Ended};
use std::process::ExitCode;

const USAGE: &str =
    "usage: salvage [--report] < RECORDING   write what can be salvaged, or tell what becomes of it";

fn main() -> ExitCode {
    let arguments: Vec<String> =
        std::env::args_os().skip(1).map(|argument| argument.to_string_lossy().into_owned()).collect();
    code(match arguments.iter().map(String::as_str).collect::<Vec<_>>()[..] {
        [] => tell(false),
        ["--report"] => tell(true),
        _ => Err(Ended::unusable(USAGE.to_string())),
    })
}

/// Writes the new file, or the report.
fn tell(wants_report: bool) -> Result<(), Ended> {
    let file = read_input("the recording")?;
    match salvage(&file) {
        Some(salvaged) if wants_report => print(salvaged.report.lines()),
        Some(salvaged) => print(salvaged.file()),
        None => {
            let why: Vec<&str> = causes(&file).into_iter().map(words).collect();
            Err(Ended::refused(format!(
                "{UNSALVAGEABLE} the recording can't be salvaged: {}",
                why.join(", ")
            )))
        }
    }
}

/// A cause in words.
fn words(cause: Cause) -> &'static str {
    match cause {
        Cause::Under8Bytes => "it has fewer than 8 bytes",
        Cause::Above65535Bytes => "it has more than 65,535 bytes",
        Cause::OffsetBetweenEvents => "its page offset isn't 8 plus a multiple of 8",
        Cause::OffsetPastFile => "its page offset lies past its end",
    }
}
