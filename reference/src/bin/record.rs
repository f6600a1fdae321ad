//! Makes a recording from its text, and shows the text of a recording (docs/RECORDINGS.md).
//!
//! `record SCRIPT FILE`, `record --show FILE`

#![forbid(unsafe_code)]

#[path = "support/files.rs"]
mod files;
#[path = "support/new_file.rs"]
mod new_file;
#[path = "support/standard.rs"]
mod standard;

use files::{read, read_recording, shown};
use new_file::NewFile;
use reference::script::{make, show};
use standard::{code, print, Ended};
use std::ffi::{OsStr, OsString};
use std::process::ExitCode;

const USAGE: &str = "usage: record SCRIPT FILE   make the recording FILE from the text SCRIPT
       record --show FILE   print the text of the recording FILE
- for SCRIPT is standard input; the text is described in docs/RECORDINGS.md";

/// What the arguments ask for.
enum Task {
    Help,
    Make { script: OsString, file: OsString },
    Show { file: OsString },
}

fn main() -> ExitCode {
    code(task(std::env::args_os().skip(1)).and_then(|task| match task {
        Task::Help => print(format!("{USAGE}\n")),
        Task::Make { script, file } => make_file(&script, &file),
        Task::Show { file } => read_recording(&file).and_then(|recording| print(show(&recording))),
    }))
}

/// Reads the arguments; after `--` none is an option.
fn task(arguments: impl Iterator<Item = OsString>) -> Result<Task, Ended> {
    let (mut names, mut shows, mut options) = (Vec::new(), false, true);
    for argument in arguments {
        match argument.to_str() {
            Some("-h" | "--help") if options => return Ok(Task::Help),
            Some("--show") if options => shows = true,
            Some("--") if options => options = false,
            Some(option) if options && option.starts_with('-') && option != "-" => {
                return Err(Ended::unusable(format!("unknown option {option}\n{USAGE}")));
            }
            _ => names.push(argument),
        }
    }
    match (shows, <[OsString; 1]>::try_from(names)) {
        (true, Ok([file])) => Ok(Task::Show { file }),
        (false, Err(names)) => match <[OsString; 2]>::try_from(names) {
            Ok([script, file]) if file != "-" => Ok(Task::Make { script, file }),
            _ => Err(Ended::unusable(USAGE.to_string())),
        },
        _ => Err(Ended::unusable(USAGE.to_string())),
    }
}

/// Makes the recording; where the script is wrong, no file is written or changed.
fn make_file(script: &OsStr, file: &OsStr) -> Result<(), Ended> {
    let new = NewFile::at(file, script)?;
    let text = read(script)?;
    let recording = make(&String::from_utf8_lossy(&text))
        .map_err(|fault| Ended::refused(format!("{}:{}: {}", shown(script), fault.line, fault.what)))?;
    new.write(&recording.bytes())
}
