//! Compares what another program salvages of damaged recordings with the reference's.
//!
//! `compare_salvages [--seed N] [--recordings N] program [argument ...]`

#![forbid(unsafe_code)]

#[path = "support/compared.rs"]
mod compared;
#[path = "support/recordings.rs"]
mod recordings;

use reference::comparison::salvages::run;
use std::process::ExitCode;

fn main() -> ExitCode {
    recordings::compared("compare_salvages", run)
}
