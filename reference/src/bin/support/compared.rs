//! What the comparing programs share.

use std::process::ExitCode;
use std::time::{SystemTime, UNIX_EPOCH};

/// The seed of a run that is given none: the clock's.
pub fn clock_seed() -> u64 {
    SystemTime::now().duration_since(UNIX_EPOCH).map_or(1, |time| time.as_secs())
}

/// Runs a comparison with its settings: status 0 where all is equal, 1 otherwise, and 2 with the usage where the
/// arguments were wrong.
pub fn compared<S>(settings: Option<S>, run: impl Fn(&S) -> bool, usage: &str) -> ExitCode {
    match settings {
        Some(settings) if run(&settings) => ExitCode::SUCCESS,
        Some(_) => ExitCode::FAILURE,
        None => {
            eprintln!("{usage}");
            ExitCode::from(2)
        }
    }
}
