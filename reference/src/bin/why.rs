//! The reference's reason for a write: a recording, a number of events, a nexus and the volume's support; two lines on
//! standard output.
//!
//! `why [FILE] EVENTS NEXUS SUPPORT`, or `--every` or `--writes` in place of the three: the reasons of every write that
//! can be tried, or of those that the recording has. Without FILE the recording is standard input. Where there is no
//! reason, standard output stays empty, and a line on standard error begins with the refusal's number; where the arguments
//! make no sense, with `usage`.

#![forbid(unsafe_code)]

#[path = "support/files.rs"]
mod files;
#[path = "support/standard.rs"]
mod standard;

use files::{read_recording, shown};
use reference::why::{Asked, History};
use standard::{code, print, Ended};
use std::ffi::{OsStr, OsString};
use std::process::ExitCode;

const USAGE: &str =
    "usage: why [FILE] EVENTS NEXUS SUPPORT   tell why NEXUS's next write is stopped after EVENTS events
       why [FILE] --every                  tell it for every write that can be tried
       why [FILE] --writes                 tell it for each refused write of the recording";

fn main() -> ExitCode {
    let arguments: Vec<OsString> = std::env::args_os().skip(1).collect();
    let texts: Vec<&str> = arguments.iter().map(|argument| argument.to_str().unwrap_or_default()).collect();
    let input = OsStr::new("-");
    code(match (Asked::read(&texts), texts.split_first().and_then(|(_, rest)| Asked::read(rest))) {
        (Some(asked), _) => tell(input, asked),
        (None, Some(asked)) => tell(&arguments[0], asked),
        (None, None) if matches!(texts[..], ["-h" | "--help"]) => print(format!("{USAGE}\n")),
        (None, None) => Err(Ended::unusable(USAGE.to_string())),
    })
}

/// Prints the lines.
fn tell(file: &OsStr, asked: Asked) -> Result<(), Ended> {
    let history = History::of(&read_recording(file)?);
    let lines = history.lines(asked).map_err(|refusal| {
        let (number, count) = (refusal.number(), history.calls.len());
        Ended::refused(format!("{number} {}: the recording has {count} events", shown(file)))
    })?;
    print(lines)
}
