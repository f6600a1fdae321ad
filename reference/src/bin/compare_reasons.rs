//! Compares another program's reasons for writes with the reference's. The program gets `--every`, `--writes` or
//! EVENTS NEXUS SUPPORT as its last arguments, and the recording on standard input.
//!
//! `compare_reasons [--seed N] [--recordings N] program [argument ...]`

#![forbid(unsafe_code)]

#[path = "support/compared.rs"]
mod compared;
#[path = "support/recordings.rs"]
mod recordings;

use reference::comparison::reasons::run;
use std::process::ExitCode;

fn main() -> ExitCode {
    recordings::compared("compare_reasons", run)
}
