//! Writes a claim as a page of HTML for a person (docs/CLAIMS.md), from the claim's lines and the drive's replies.
//!
//! `claim_report RATE SHA256 FILE OUT PROGRAM [ARGUMENT ...] < lines`: PROGRAM is the drive on a pipe.

#![forbid(unsafe_code)]

#[path = "support/files.rs"]
mod files;
#[path = "support/new_file.rs"]
mod new_file;
#[path = "support/pipe.rs"]
mod pipe;
#[path = "support/standard.rs"]
mod standard;

use files::read_recording;
use new_file::NewFile;
use pipe::Pipe;
use reference::claim::Rate;
use reference::hex;
use reference::recording::Recording;
use reference::report::{report, writes, Subject, Write};
use standard::{code, print, read_input, Ended};
use std::ffi::OsString;
use std::path::Path;
use std::process::ExitCode;

const USAGE: &str = "usage: claim_report RATE SHA256 FILE OUT PROGRAM [ARGUMENT ...] < LINES
write the page OUT of the claim for the recording FILE, whose SHA-256 is given: LINES are the claim's at RATE pence,
PROGRAM is the drive on a pipe";

/// What the arguments ask for.
struct Task {
    rate: u64,
    sha256: String,
    file: OsString,
    out: OsString,
    program: Vec<OsString>,
}

fn main() -> ExitCode {
    let arguments: Vec<OsString> = std::env::args_os().skip(1).collect();
    code(match arguments.as_slice() {
        [option] if option == "-h" || option == "--help" => print(format!("{USAGE}\n")),
        arguments => task(arguments).ok_or_else(|| Ended::unusable(USAGE.to_string())).and_then(make),
    })
}

fn task(arguments: &[OsString]) -> Option<Task> {
    let [rate, sha256, file, out, program @ ..] = arguments else { return None };
    let are_names = [file, out].iter().all(|name| !name.as_encoded_bytes().starts_with(b"-"));
    (are_names && !program.is_empty()).then_some(())?;
    let Rate::Pence(rate) = Rate::read(rate.to_str()?)? else { return None };
    let sha256 = sha256.to_str().filter(|digits| hex::read(digits).is_some_and(|bytes| bytes.len() == 32))?;
    Some(Task {
        rate,
        sha256: sha256.to_string(),
        file: file.clone(),
        out: out.clone(),
        program: program.to_vec(),
    })
}

/// Makes the page; nothing is written where the lines and the replies differ.
fn make(Task { rate, sha256, file, out, program }: Task) -> Result<(), Ended> {
    let new = NewFile::at(&out, &file)?;
    let recording = read_recording(&file)?;
    let lines = read_input("the lines")?;
    let writes = asked(&recording, &program).map_err(Ended::refused)?;
    let name = Path::new(&file).file_name().unwrap_or(&file).to_string_lossy();
    let subject = Subject { name: &name, sha256: &sha256, recording: &recording, rate };
    let page = report(&subject, &String::from_utf8_lossy(&lines), &writes).map_err(Ended::refused)?;
    new.write(page.as_bytes())
}

/// What the drive says of each write of a recording.
fn asked(recording: &Recording, program: &[OsString]) -> Result<Vec<Write>, String> {
    let mut drive = Pipe::start(program)?;
    let (replies, all_came) = recording.replies(|command| drive.ask(command));
    all_came.and_then(|()| writes(recording, &replies))
}
