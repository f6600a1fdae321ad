//! 02, request 12: the five lines of a report.

use super::salvaged::Report;
use std::fmt::Write;

/// The header's numbers in their order, as the lines call them.
const NUMBERS: [&str; 4] = ["events", "first event", "page bytes", "total"];

impl Report {
    /// The lines: old and new value of each header number, and the dropped events.
    pub fn lines(&self) -> String {
        let mut text = String::new();
        for ((name, old), new) in NUMBERS.iter().zip(self.old.numbers()).zip(self.new.numbers()) {
            let _ = writeln!(text, "{name} {old} -> {new}");
        }
        let _ = writeln!(text, "dropped {}", self.dropped);
        text
    }
}
