//! Compares another program's claims of recordings with the reference's. The program gets a rate as its last argument.
//!
//! `compare_claims [--seed N] [--recordings N] program [argument ...]`

#![forbid(unsafe_code)]

#[path = "support/compared.rs"]
mod compared;
#[path = "support/recordings.rs"]
mod recordings;

use reference::comparison::claims::run;
use std::process::ExitCode;

fn main() -> ExitCode {
    recordings::compared("compare_claims", run)
}
