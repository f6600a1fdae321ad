//! The comparison of claims against the reference's, and against claimers with a fault. A faulty claimer is called here or,
//! for some, is this program itself, started with `--fault NAME` and the rate.

#![forbid(unsafe_code)]

mod claimer;
#[path = "../support/comparing.rs"]
mod comparing;
#[path = "../support/failures.rs"]
mod failures;
mod faults;
#[path = "../support/written.rs"]
mod written;

use comparing::{failure_with_fault, failures_without_fault, fault_asked_for, play, told, Programs};
use faults::{Fault, FAULTS, LONG};
use reference::comparison::claims::{directed, first_difference, random, run_on, Case, Given};
use reference::recording::Recording;
use std::process::ExitCode;

const PROGRAMS: Programs =
    Programs { comparing: env!("CARGO_BIN_EXE_compare_claims"), right: env!("CARGO_BIN_EXE_claim") };

/// The faults whose claimer is started as a program for each recording: one in the rows, one in a rate, one in what is
/// written on standard error. The others are called in this process.
const AS_PROGRAMS: [&str; 3] = ["external-as-encrypted", "rate-in-64-bits", "refusal-with-22-always"];

/// The report of a fault's first difference, of directed recordings alone.
fn report_of(&(name, fault, longest): &Fault, directed: &[Case]) -> Option<String> {
    if AS_PROGRAMS.contains(&name) {
        return PROGRAMS.report_of_fault(name);
    }
    let claimer = |file: &[u8], rate: &str| fault(file, rate);
    first_difference(directed, &claimer, longest != LONG).map(|found| found.text)
}

/// The directed recordings alone have to find each fault, and to leave a short recording of it.
fn failures_with_fault() -> Vec<String> {
    let directed = directed();
    let failure = |fault: &Fault| failure_with_fault(fault.0, fault.2, report_of(fault, &directed));
    FAULTS.iter().filter_map(failure).collect()
}

/// What the reference's own program writes for wrong arguments: its usage, and nothing on standard output.
fn failures_of_arguments() -> Vec<String> {
    let mut failures = Vec::new();
    for arguments in [&[][..], &["250", "1"], &["--help"], &["250", ""]] {
        let output = std::process::Command::new(PROGRAMS.right).args(arguments).output().expect("claim runs");
        if !output.stdout.is_empty() || !output.stderr.starts_with(b"usage") {
            failures.push(format!("claim {arguments:?} gives {output:?}"));
        }
    }
    failures
}

/// Random recordings that aren't damaged have to be sound, however many writes are put into them.
fn failures_of_random() -> Vec<String> {
    let mut cases = random(1, 600);
    cases.retain(|case| case.recording.name == "sound" && Recording::read(&case.recording.file).is_none());
    cases.iter().map(|case| format!("{} bytes of a random recording", case.recording.file.len())).collect()
}

/// The claimer of a fault.
fn faulty(name: &str) -> fn(&[u8], &str) -> Given {
    FAULTS.iter().find(|(fault, _, _)| *fault == name).expect("the fault has a name").1
}

fn main() -> ExitCode {
    if let Some(name) = fault_asked_for() {
        let rate = std::env::args().next_back().unwrap_or_default();
        return play(|file| faulty(&name)(file, &rate));
    }
    told(
        || [PROGRAMS.failures(), failures_of_arguments()].concat(),
        || {
            let without = failures_without_fault(|recordings| run_on(&claimer::right, 1, recordings));
            [without, failures_of_random(), failures_with_fault()].concat()
        },
    )
}
