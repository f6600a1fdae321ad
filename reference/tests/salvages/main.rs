//! The comparison of salvages against the reference's, and against salvagers with a fault. A faulty salvager is called here
//! or, for some, is this program itself, started with `--fault NAME` and, for the report, `--report`.

#![forbid(unsafe_code)]

#[path = "../support/comparing.rs"]
mod comparing;
#[path = "../support/failures.rs"]
mod failures;
mod faults;
mod salvager;
#[path = "../support/written.rs"]
mod written;

use comparing::{failure_with_fault, failures_without_fault, fault_asked_for, play, told, Programs};
use faults::{Fault, FAULTS, LONG};
use reference::comparison::salvages::{directed, first_difference, random, run_on, Case, Given, Way};
use reference::recording::Recording;
use std::process::ExitCode;

const PROGRAMS: Programs =
    Programs { comparing: env!("CARGO_BIN_EXE_compare_salvages"), right: env!("CARGO_BIN_EXE_salvage") };

/// The faults whose salvager is started as a program for each recording: one in the file, one in the report, one in what
/// is written on standard error. The others are called in this process.
const AS_PROGRAMS: [&str; 3] = ["spare-bytes-lost", "old-values-reported-as-new", "refusal-with-22"];

/// The report of a fault's first difference, of directed recordings alone.
fn report_of(&(name, fault, longest): &Fault, directed: &[Case]) -> Option<String> {
    if AS_PROGRAMS.contains(&name) {
        return PROGRAMS.report_of_fault(name);
    }
    first_difference(directed, &fault, longest != LONG).map(|found| found.text)
}

/// The directed recordings alone have to find each fault, and to leave a short recording of it.
fn failures_with_fault() -> Vec<String> {
    let directed = directed();
    let failure = |fault: &Fault| failure_with_fault(fault.0, fault.2, report_of(fault, &directed));
    FAULTS.iter().filter_map(failure).collect()
}

/// What the reference's own program writes for wrong arguments: its usage, and nothing on standard output.
fn failures_of_arguments() -> Vec<String> {
    let mut failures = Vec::new();
    for arguments in [&["--help"][..], &["--report", "--report"], &["report"]] {
        let output =
            std::process::Command::new(PROGRAMS.right).args(arguments).output().expect("salvage runs");
        if !output.stdout.is_empty() || !output.stderr.starts_with(b"usage") {
            failures.push(format!("salvage {arguments:?} gives {output:?}"));
        }
    }
    failures
}

/// Random recordings that aren't damaged have to be sound, and most of them are damaged.
fn failures_of_random() -> Vec<String> {
    let cases = random(1, 600);
    let (sound, damaged): (Vec<Case>, Vec<Case>) =
        cases.into_iter().partition(|case| Recording::read(&case.file).is_some());
    let told_sound = damaged.iter().filter(|case| case.name == "sound");
    let mut failures: Vec<String> =
        told_sound.map(|case| format!("{} bytes of a random recording", case.file.len())).collect();
    if sound.len() > damaged.len() {
        failures.push(format!("{} random recordings are sound", sound.len()));
    }
    failures
}

/// The salvager of a fault.
fn faulty(name: &str) -> fn(&[u8], Way) -> Given {
    FAULTS.iter().find(|(fault, _, _)| *fault == name).expect("the fault has a name").1
}

fn main() -> ExitCode {
    if let Some(name) = fault_asked_for() {
        let wants_report = std::env::args().any(|argument| argument == "--report");
        let way = if wants_report { Way::Report } else { Way::File };
        return play(|file| faulty(&name)(file, way));
    }
    told(
        || [PROGRAMS.failures(), failures_of_arguments()].concat(),
        || {
            let without = failures_without_fault(|recordings| run_on(&salvager::right, 1, recordings));
            [without, failures_of_random(), failures_with_fault()].concat()
        },
    )
}
