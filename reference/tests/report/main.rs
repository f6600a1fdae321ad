//! Tests of the claim's report: docs/CLAIMS.md. The reference's drive stands in for the proved one.

#![forbid(unsafe_code)]

mod difference;
mod files;
mod lists;
mod markup;
mod page;
#[path = "../support/recorded.rs"]
mod recorded;
#[path = "../support/running.rs"]
mod running;
mod sources;

use reference::claim::{count, Claim, Counts, ROWS};
use reference::recording::Recording;
use reference::report::{report, writes, Subject, Write};
use reference::stream::Drive;
use running::{outcome, run};
use std::path::Path;

const DRIVE: &str = env!("CARGO_BIN_EXE_drive");
const SHA256: &str = "00112233445566778899aabbccddeeff00112233445566778899aabbccddeeff";
const MONTH: &str = concat!(env!("CARGO_MANIFEST_DIR"), "/../examples/month.rec");
/// The month's writes, as the comments of examples/month.txt tell them.
const MONTH_ROWS: [(usize, Counts); 4] = [
    (0, Counts([9, 0, 1, 11])),
    (1, Counts([6, 0, 1, 1])),
    (2, Counts([2, 2, 1, 1])),
    (3, Counts([3, 0, 1, 2])),
];

/// The claim's lines with these rows; the others are zeros.
fn lines(rate: u64, rows: &[(usize, Counts)]) -> String {
    let mut all = [Counts::default(); ROWS];
    rows.iter().for_each(|&(row, counts)| all[row] = counts);
    Claim::of(all, rate).text()
}

/// What the library's drive says of each write.
fn written(recording: &Recording) -> Vec<Write> {
    let mut drive = Drive::new();
    let (replies, _) = recording.replies(|command| Ok(drive.answer(command)));
    writes(recording, &replies).expect("replies to writes")
}

/// The page of a recording, by the library.
fn page_of(name: &str, rate: u64, recording: &Recording) -> String {
    let writes = written(recording);
    let subject = Subject { name, sha256: SHA256, recording, rate };
    let lines = Claim::of(count(writes.iter().map(Write::cell)), rate).text();
    report(&subject, &lines, &writes).expect("the lines are right")
}

/// Runs the program on a file and lines, with the reference's drive.
fn claim_report(folder: &Path, rate: &str, file: &str, out: &str, lines: &str) -> (i32, String, String) {
    with_arguments(folder, &[rate, SHA256, file, out, DRIVE], lines)
}

fn with_arguments(folder: &Path, arguments: &[&str], lines: &str) -> (i32, String, String) {
    outcome(&run(env!("CARGO_BIN_EXE_claim_report"), folder, arguments, lines.as_bytes()))
}
