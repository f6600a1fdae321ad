//! Standard input and output, and how a program ends.

use std::io::{self, ErrorKind, Read, Write};
use std::process::ExitCode;

/// Why a program ends: a line for standard error, and the status.
pub struct Ended {
    pub line: String,
    pub status: u8,
}

impl Ended {
    /// What was asked for is wrong: status 1.
    pub fn refused(line: String) -> Ended {
        Ended { line, status: 1 }
    }

    /// Bad arguments, or files that can't be used: status 2.
    pub fn unusable(line: String) -> Ended {
        Ended { line, status: 2 }
    }
}

/// The status of a program that is done or has ended; the line is said.
pub fn code(done: Result<(), Ended>) -> ExitCode {
    let Err(ended) = done else { return ExitCode::SUCCESS };
    eprintln!("{}", ended.line);
    ExitCode::from(ended.status)
}

/// All of standard input, by its name for a message.
pub fn read_input(name: &str) -> Result<Vec<u8>, Ended> {
    let mut bytes = Vec::new();
    match io::stdin().lock().read_to_end(&mut bytes) {
        Ok(_) => Ok(bytes),
        Err(fault) => Err(Ended::unusable(format!("{name} can't be read: {fault}"))),
    }
}

/// Writes to standard output. Where its reader has gone away, the program ends quietly.
pub fn print(text: impl AsRef<[u8]>) -> Result<(), Ended> {
    let mut output = io::stdout().lock();
    match output.write_all(text.as_ref()).and_then(|()| output.flush()) {
        Err(fault) if fault.kind() != ErrorKind::BrokenPipe => {
            Err(Ended::unusable(format!("standard output can't be written: {fault}")))
        }
        _ => Ok(()),
    }
}
