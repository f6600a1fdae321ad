//! Sends the pages of a file such as vectors/pages.txt to a drive program and to the library, and compares
//! both with what the file expects.
//!
//! `vectors FILE PROGRAM [ARGUMENT ...]`

#![forbid(unsafe_code)]

#[path = "support/pipe.rs"]
mod pipe;

use pipe::Pipe;
use reference::answer_words::when;
use reference::comparison::vector_file;
use reference::field_words::{field, Page};
use reference::stream::Drive;
use std::process::ExitCode;

const USAGE: &str = "usage: vectors FILE PROGRAM [ARGUMENT ...]";

fn main() -> ExitCode {
    let arguments: Vec<String> = std::env::args().skip(1).collect();
    let Some((file, program)) = arguments.split_first().filter(|(_, program)| !program.is_empty()) else {
        eprintln!("{USAGE}");
        return ExitCode::from(2);
    };
    let text = std::fs::read_to_string(file).map_err(|error| format!("{file} can't be read: {error}"));
    let ready = text
        .and_then(|text| vector_file::read(&text).map_err(|fault| format!("{file}: {fault}")))
        .and_then(|vectors| Ok((vectors, Pipe::start(program)?)));
    let (vectors, mut pipe) = match ready {
        Ok(ready) => ready,
        Err(fault) => {
            eprintln!("{fault}\n{USAGE}");
            return ExitCode::from(2);
        }
    };
    let mut different = 0;
    for vector in &vectors {
        let mut drive = Drive::new();
        let library = vector.try_on(|command| Ok(drive.answer(command)));
        let other = vector.try_on(|command| pipe.ask(command));
        let found: Vec<String> = [("library", library), ("drive", other)]
            .into_iter()
            .filter_map(|(side, outcome)| match outcome {
                Ok(None) => None,
                Ok(Some(found)) => Some(format!("{side}: {found}")),
                Err(trouble) => Some(format!("{side}: {trouble}")),
            })
            .collect();
        let field = vector.byte.map(|byte| field(Page::SetDataEncryption, &vector.page, byte));
        let field = field.map_or(String::new(), |field| format!(": {field}"));
        let expected = format!("{}: answer {}, {}{field}", vector.name, vector.answer, when(vector.answer));
        if found.is_empty() {
            println!("{expected}");
        } else {
            different += 1;
            println!("DIFFERS: {expected}; {}", found.join("; "));
        }
    }
    if vectors.is_empty() || different > 0 {
        println!("{} vectors, {different} not as expected", vectors.len());
        return ExitCode::FAILURE;
    }
    println!("{} vectors, all as expected", vectors.len());
    ExitCode::SUCCESS
}
