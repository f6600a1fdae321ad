//! The comparison of recordings against the reference's replay, and against replayers with a fault. A faulty replayer is
//! called here or, for some, is this program itself, started with `--fault NAME` and, for the record, `--record`.

#![forbid(unsafe_code)]

#[path = "../support/comparing.rs"]
mod comparing;
#[path = "../support/failures.rs"]
mod failures;
mod faults;
mod files;
mod replayer;

use comparing::{failure_with_fault, failures_without_fault, fault_asked_for, play, told, Programs};
use faults::{Fault, FAULTS, LONG};
use reference::comparison::recordings::{directed, first_difference, run_on, Case, Given, Way};
use reference::recording::Recording;
use replayer::{shown, state_path};
use std::process::ExitCode;

const PROGRAMS: Programs =
    Programs { comparing: env!("CARGO_BIN_EXE_compare_recordings"), right: env!("CARGO_BIN_EXE_replay") };

/// The faults whose replayer is started as a program for each recording: one that keeps something from start to start,
/// one in what is written on standard error, one with `--record`. The others are called in this process.
const AS_PROGRAMS: [&str; 3] =
    ["goes-on-from-the-record-before", "refusal-with-21", "record-of-power-on-always"];

/// The report of a fault's first difference, of directed recordings alone.
fn report_of(&(name, fault, longest): &Fault, directed: &[Case]) -> Option<String> {
    if AS_PROGRAMS.contains(&name) {
        let _ = std::fs::remove_file(state_path());
        return PROGRAMS.report_of_fault(name);
    }
    let replayer = |file: &[u8], way: Way| fault(file, way == Way::Record);
    first_difference(directed, &replayer, longest != LONG).map(|found| found.text)
}

/// The directed recordings alone have to find each fault, and to leave a short recording of it.
fn failures_with_fault() -> Vec<String> {
    let directed = directed();
    let failure = |fault: &Fault| failure_with_fault(fault.0, fault.2, report_of(fault, &directed));
    FAULTS.iter().filter_map(failure).collect()
}

/// The replayer of a fault.
fn faulty(name: &str) -> fn(&[u8], bool) -> Given {
    FAULTS.iter().find(|(fault, _, _)| *fault == name).expect("the fault has a name").1
}

fn main() -> ExitCode {
    if let Some(name) = fault_asked_for() {
        let record = std::env::args().any(|argument| argument == "--record");
        return play(|file| faulty(&name)(file, record));
    }
    let right = |file: &[u8], way: Way| shown(Recording::read(file), way == Way::Record);
    told(
        || PROGRAMS.failures(),
        || {
            let without = failures_without_fault(|recordings| run_on(&right, 1, recordings));
            [without, failures_with_fault()].concat()
        },
    )
}
