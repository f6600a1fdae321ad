//! What is printed about a difference: the short recording in hex and in words, by its stored page offset, and both
//! results.

use super::salvager::{Difference, Way};
use crate::comparison::recordings::case::Case;
use crate::comparison::recordings::report::{
    bytes_text, events_text, header_text, hex_text, lines_text, results_text,
};
use crate::comparison::recordings::shrink::Short;
use crate::recording::{event_rules, Header};
use crate::salvage::{causes, Damaged};

/// The whole report of a difference.
pub fn difference_text(case: &Case, short: &Short<Difference>) -> String {
    let Short { file, difference: Difference { way, wanted, outcome } } = short;
    let (title, tell): (_, fn(&[u8]) -> String) = match way {
        Way::File => ("the new files differ", bytes_text),
        Way::Report => ("the reports (--report) differ", lines_text),
    };
    let damaged = Damaged::read(file);
    hex_text(case, file, damaged.as_ref().map(|damaged| damaged.events.len()))
        + &file_text(file, damaged.as_ref())
        + &results_text(title, file, (wanted, outcome), tell)
}

/// A file in words: the header, the events with the rules that they break, or why there is nothing to salvage.
fn file_text(file: &[u8], damaged: Option<&Damaged>) -> String {
    let header = Header::read(file).map_or("  no header\n".to_string(), |header| header_text(&header));
    let Some(damaged) = damaged else {
        return header + &causes(file).iter().map(|cause| format!("  {cause:?}\n")).collect::<String>();
    };
    let (kept, page_bytes) = (damaged.longest_run(), damaged.page_bytes.len());
    let remark = |number| match (number < kept, &event_rules(&damaged.events[number], page_bytes)[..]) {
        (true, _) => "kept".to_string(),
        (false, []) => "dropped".to_string(),
        (false, broken) => format!("dropped; it breaks {broken:?}"),
    };
    header + &events_text(&damaged.events, remark) + &format!("  {page_bytes} page bytes\n")
}
