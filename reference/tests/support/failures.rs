//! How a test without a harness ends.

use std::process::ExitCode;

/// Tells the failures, a line each; success where there is none.
pub fn told(failures: &[String]) -> ExitCode {
    for failure in failures {
        println!("FAILED: {failure}");
    }
    if failures.is_empty() {
        ExitCode::SUCCESS
    } else {
        ExitCode::FAILURE
    }
}
