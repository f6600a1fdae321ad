//! What is printed about a difference: the short recording in hex and in words, what was asked, and the lines that differ.

use super::case::Case;
use super::reasoner::Difference;
use crate::comparison::recordings::outcome::{Given, Outcome, Wanted};
use crate::comparison::recordings::report::{recording_text, results_text};
use crate::comparison::recordings::shrink::Short;
use crate::why::{History, Question};

/// The lines of a reason.
const LINES: usize = 2;

/// The whole report of a difference.
pub fn difference_text(case: &Case, short: &Short<Difference>) -> String {
    let Short { file, difference: Difference { arguments, wanted, outcome } } = short;
    let title = format!("the reasons asked for with {arguments:?} differ");
    let first = match (wanted, outcome) {
        (Wanted::Bytes(wanted), Outcome::Given(Given { output, errors })) if errors.is_empty() => {
            first_difference(file, arguments, [wanted, output])
        }
        _ => String::new(),
    };
    recording_text(&case.recording, file)
        + &results_text(&title, file, (wanted, outcome), |bytes| {
            format!("{} bytes on standard output\n", bytes.len())
        })
        + &first
}

/// The first line in which two outputs differ, and what it is about.
fn first_difference(file: &[u8], arguments: &[String], outputs: [&[u8]; 2]) -> String {
    let [wanted, given] =
        outputs.map(|output| output.split_inclusive(|&byte| byte == b'\n').collect::<Vec<_>>());
    let same = wanted.iter().zip(&given).take_while(|(one, other)| one == other).count();
    let line = |lines: &[&[u8]]| lines.get(same).map_or("no line".to_string(), |line| quoted(line));
    let about = if arguments == ["--every"] { question(file, same / LINES) } else { String::new() };
    format!(
        "    the first difference is in line {}{about}:\n        reference: {}\n        other: {}\n",
        same + 1,
        line(&wanted),
        line(&given)
    )
}

/// A line as a program would have to write it.
fn quoted(line: &[u8]) -> String {
    format!("{:?}", String::from_utf8_lossy(line))
}

/// The write that a pair of lines of `--every` is about.
fn question(file: &[u8], at: usize) -> String {
    let question = History::read(file).ok().and_then(|history| history.questions().nth(at));
    question.map_or(String::new(), |Question { events, nexus, supported }| {
        format!(" (after {events} events, nexus {nexus}, support {})", u8::from(supported))
    })
}
