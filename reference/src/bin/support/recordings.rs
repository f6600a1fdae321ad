//! What the programs that compare over recordings share.

use crate::compared;
use reference::comparison::recordings::Settings;
use std::process::ExitCode;

/// Runs a comparison as the arguments ask for it: `[--seed N] [--recordings N] program [argument ...]`.
pub fn compared(name: &str, run: impl Fn(&Settings) -> bool) -> ExitCode {
    let usage = format!("usage: {name} [--seed N] [--recordings N] program [argument ...]");
    compared::compared(settings(std::env::args().skip(1).collect()), run, &usage)
}

/// The settings that the arguments ask for.
fn settings(arguments: Vec<String>) -> Option<Settings> {
    let mut settings = Settings { program: Vec::new(), seed: compared::clock_seed(), recordings: 2_000 };
    let mut arguments = arguments.into_iter();
    while let Some(argument) = arguments.next() {
        match argument.as_str() {
            "--seed" => settings.seed = arguments.next()?.parse().ok()?,
            "--recordings" => settings.recordings = arguments.next()?.parse().ok()?,
            option if option.starts_with("--") => return None,
            _ => {
                settings.program.push(argument);
                settings.program.extend(&mut arguments);
            }
        }
    }
    (!settings.program.is_empty()).then_some(settings)
}
