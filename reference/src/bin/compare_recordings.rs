//! Compares another program's replay of recordings with the reference's.
//!
//! `compare_recordings [--seed N] [--recordings N] program [argument ...]`

#![forbid(unsafe_code)]

#[path = "support/compared.rs"]
mod compared;
#[path = "support/recordings.rs"]
mod recordings;

use reference::comparison::recordings::run;
use std::process::ExitCode;

fn main() -> ExitCode {
    recordings::compared("compare_recordings", run)
}
