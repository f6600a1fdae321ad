//! What is printed about a difference: the short recording in hex and in words, the rate, and both results.

use super::case::Case;
use super::claimer::Difference;
use crate::comparison::recordings::report::{lines_text, recording_text, results_text};
use crate::comparison::recordings::shrink::Short;

/// The whole report of a difference.
pub fn difference_text(case: &Case, short: &Short<Difference>) -> String {
    let Short { file, difference: Difference { wanted, outcome } } = short;
    let title = format!("the claims at the rate {:?} differ", case.rate);
    recording_text(&case.recording, file) + &results_text(&title, file, (wanted, outcome), lines_text)
}
