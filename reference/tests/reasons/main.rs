//! The comparison of reasons against the reference's, and against reasoners with a fault. A faulty reasoner is called here
//! or, for some, is this program itself, started with `--fault NAME` and the arguments.

#![forbid(unsafe_code)]

#[path = "../support/comparing.rs"]
mod comparing;
#[path = "../support/failures.rs"]
mod failures;
mod faults;
mod reasoner;
#[path = "../support/written.rs"]
mod written;

use comparing::{failure_with_fault, failures_without_fault, fault_asked_for, play, told, Programs};
use faults::{Fault, FAULTS, LONG};
use reference::comparison::reasons::{directed, first_difference, random, run_on, Case, Given, MOST_EVENTS};
use reference::record::Record;
use reference::recording::Recording;
use reference::sizes::PLACES;
use reference::stream::kind;
use reference::why::History;
use std::process::ExitCode;

const PROGRAMS: Programs =
    Programs { comparing: env!("CARGO_BIN_EXE_compare_reasons"), right: env!("CARGO_BIN_EXE_why") };

/// The faults whose reasoner is started as a program for each recording: one for each thing that is asked, and one in what
/// is written on standard error. The others are called in this process.
const AS_PROGRAMS: [&str; 4] = ["last-touch", "passing-writes-too", "nexus-in-64-bits", "19-before-22"];

/// The report of a fault's first difference, of directed recordings alone.
fn report_of(&(name, fault, longest): &Fault, directed: &[Case]) -> Option<String> {
    if AS_PROGRAMS.contains(&name) {
        return PROGRAMS.report_of_fault(name);
    }
    let reasoner = |file: &[u8], arguments: &[&str]| fault(file, arguments);
    first_difference(directed, &reasoner, longest != LONG).map(|found| found.text)
}

/// The directed recordings alone have to find each fault, and to leave a short recording of it.
fn failures_with_fault() -> Vec<String> {
    let directed = directed();
    let failure = |fault: &Fault| failure_with_fault(fault.0, fault.2, report_of(fault, &directed));
    FAULTS.iter().filter_map(failure).collect()
}

/// Random recordings that aren't damaged have to be sound and short, whatever is put into them.
fn failures_of_random() -> Vec<String> {
    let mut cases = random(1, 600);
    let is_short = |recording: Recording| recording.events.len() <= MOST_EVENTS;
    cases.retain(|case| {
        case.recording.name == "sound" && !Recording::read(&case.recording.file).is_some_and(is_short)
    });
    cases.iter().map(|case| format!("{} bytes of a random recording", case.recording.file.len())).collect()
}

/// The account goes by what calls did. A call that acted on a place drew a number for it, and no other did, so that who goes
/// by the numbers comes to the same calls.
fn failures_of_numbers() -> Vec<String> {
    let mut failures = Vec::new();
    for case in directed().into_iter().chain(random(1, 300)) {
        let calls = History::read(&case.recording.file).map_or(Vec::new(), |history| history.calls);
        for (position, call) in calls.iter().enumerate().filter(|(_, call)| call.event.kind != kind::POWER_ON)
        {
            let number = |record: &Record, place: usize| record.places[place].number;
            let drawn = |place| number(&call.before, place) != number(&call.after, place);
            if (0..PLACES).any(|place| call.acted_on(place) != drawn(place)) {
                failures.push(format!("{}, event {position}", case.recording.name));
            }
        }
    }
    failures
}

/// The reasoner of a fault.
fn faulty(name: &str) -> fn(&[u8], &[&str]) -> Given {
    FAULTS.iter().find(|(fault, _, _)| *fault == name).expect("the fault has a name").1
}

fn main() -> ExitCode {
    if let Some(name) = fault_asked_for() {
        let arguments: Vec<String> = std::env::args().skip_while(|it| *it != name).skip(1).collect();
        let arguments: Vec<&str> = arguments.iter().map(String::as_str).collect();
        return play(|file| faulty(&name)(file, &arguments));
    }
    told(
        || PROGRAMS.failures(),
        || {
            let without = failures_without_fault(|recordings| run_on(&reasoner::right, 1, recordings));
            [without, failures_of_random(), failures_of_numbers(), failures_with_fault()].concat()
        },
    )
}
