//! What the tests of the comparisons over recordings share.

use crate::failures;
use reference::comparison::recordings::{Conclusion, Given};
use std::io::{self, Read, Write};
use std::process::{Command, ExitCode};
use std::thread;

/// A comparison program, and the reference's own program that it has to find right.
pub struct Programs {
    pub comparing: &'static str,
    pub right: &'static str,
}

/// Runs a comparison program; its exit status, and what it printed.
fn compare(comparing: &str, arguments: &[&str]) -> (Option<i32>, String) {
    let output = Command::new(comparing).args(arguments).output().expect("the comparison runs");
    (output.status.code(), String::from_utf8_lossy(&output.stdout).into_owned())
}

impl Programs {
    /// What the comparison program says of the right program and of wrong arguments.
    pub fn failures(&self) -> Vec<String> {
        let expected: [(&[&str], i32, &str); 5] = [
            (&["--seed", "1", "--recordings", "300", self.right], 0, "all equal, all reached"),
            (&["--recordings", "0", "/no/such/program"], 1, "it can't be started"),
            (&[], 2, ""),
            (&["--calls", "3", self.right], 2, ""),
            (&["--recordings", "many", self.right], 2, ""),
        ];
        let mut failures = Vec::new();
        for (arguments, status, words) in expected {
            let (came, report) = compare(self.comparing, arguments);
            if came != Some(status) || !report.contains(words) {
                failures.push(format!("{arguments:?} gives status {came:?}:\n{report}"));
            }
        }
        failures
    }

    /// The report of a fault whose program is this one, started with `--fault NAME`, by directed recordings alone.
    pub fn report_of_fault(&self, name: &str) -> Option<String> {
        let this = std::env::current_exe().expect("this program has a path");
        let arguments = ["--seed", "1", "--recordings", "0", &this.to_string_lossy(), "--fault", name];
        let (status, report) = compare(self.comparing, &arguments);
        (status == Some(1)).then_some(report)
    }
}

/// The fault that this program is started with, if it is.
pub fn fault_asked_for() -> Option<String> {
    let mut arguments = std::env::args().skip_while(|argument| argument != "--fault");
    arguments.next()?;
    arguments.next()
}

/// Plays a program with a fault: what it makes of the recording on standard input is written.
pub fn play(fault: impl Fn(&[u8]) -> Given) -> ExitCode {
    let mut file = Vec::new();
    let read = io::stdin().lock().read_to_end(&mut file);
    let Given { output, errors } = fault(&file);
    let written = read.and_then(|_| io::stdout().lock().write_all(&output));
    match written.and_then(|()| io::stderr().lock().write_all(&errors)) {
        Ok(()) => ExitCode::SUCCESS,
        Err(_) => ExitCode::FAILURE,
    }
}

/// Tells the failures of programs and those found in this process; much of a program's start is waiting.
pub fn told(programs: impl Fn() -> Vec<String> + Sync, here: impl Fn() -> Vec<String>) -> ExitCode {
    let failures = thread::scope(|scope| {
        let programs = scope.spawn(&programs);
        let here = here();
        [programs.join().expect("the thread ends"), here].concat()
    });
    failures::told(&failures)
}

/// What a comparison with so many random recordings says where nothing is wrong: without any, and with too few.
pub fn failures_without_fault(run: impl Fn(u64) -> Conclusion) -> Vec<String> {
    let expected = [(0, true, "all equal, all reached"), (3, false, "never reached: random")];
    let mut failures = Vec::new();
    for (recordings, is_right, words) in expected {
        let conclusion = run(recordings);
        if conclusion.is_right != is_right || !conclusion.text.contains(words) {
            failures.push(format!("{recordings} random recordings:\n{}", conclusion.text));
        }
    }
    failures
}

/// The number of bytes of the short recording in a report.
fn bytes_in(report: &str) -> Option<usize> {
    let (_, rest) = report.split_once("short recording of ")?;
    rest.split_once(' ')?.0.parse().ok()
}

/// What is wrong with the report of a fault, which is to be found and to leave a short recording of at most so many bytes.
pub fn failure_with_fault(name: &str, longest: usize, report: Option<String>) -> Option<String> {
    let Some(report) = report else { return Some(format!("fault {name} isn't found")) };
    match bytes_in(&report) {
        Some(bytes) if bytes <= longest => {
            println!("fault {name}: found, {bytes} bytes");
            None
        }
        Some(bytes) => Some(format!("fault {name} leaves {bytes} bytes:\n{report}")),
        None => Some(format!("fault {name} has no short recording:\n{report}")),
    }
}
