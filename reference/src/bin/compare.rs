//! Compares another drive on a pipe with the reference.
//!
//! `compare [--seed N] [--calls N] [--directed | --random] [--patience SECONDS] program [argument ...]`

#![forbid(unsafe_code)]

#[path = "support/compared.rs"]
mod compared;

use compared::{clock_seed, compared};
use reference::comparison::{run, Settings};
use std::process::ExitCode;
use std::time::Duration;

const USAGE: &str = "usage: compare [--seed N] [--calls N] [--directed | --random] [--patience SECONDS] \
                     program [argument ...]";

fn main() -> ExitCode {
    compared(settings(std::env::args().skip(1).collect()), run, USAGE)
}

/// The settings the arguments ask for.
fn settings(arguments: Vec<String>) -> Option<Settings> {
    let mut settings = Settings {
        program: Vec::new(),
        seed: clock_seed(),
        calls: 100_000,
        directed: false,
        random: false,
        patience: Duration::from_secs(60),
    };
    let mut arguments = arguments.into_iter();
    while let Some(argument) = arguments.next() {
        match argument.as_str() {
            "--seed" => settings.seed = arguments.next()?.parse().ok()?,
            "--calls" => settings.calls = arguments.next()?.parse().ok()?,
            "--patience" => settings.patience = Duration::from_secs(arguments.next()?.parse().ok()?),
            "--directed" => settings.directed = true,
            "--random" => settings.random = true,
            option if option.starts_with("--") => return None,
            _ => {
                settings.program.push(argument);
                settings.program.extend(&mut arguments);
            }
        }
    }
    if !settings.directed && !settings.random {
        (settings.directed, settings.random) = (true, true);
    }
    (!settings.program.is_empty()).then_some(settings)
}
