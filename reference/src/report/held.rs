//! The claim's lines, held against the drive's replies and against themselves (02, request 11).

use super::{Subject, Write};
use crate::claim::{count, total, Claim, Column, ROW_ABOVE_15};
use crate::stream::kind;

/// How the lines differ from what they are to be, a line for each difference; none where all is well.
pub fn differences(subject: &Subject, claim: &Claim, writes: &[Write]) -> Vec<String> {
    let mut said = Vec::new();
    let mut hold = |is: u64, what: &str, source: &str, expected: u64| {
        if is != expected {
            said.push(format!("the claim says {is} for {what}, where {source} {expected}"));
        }
    };
    // "Every write event is counted once, in its own nexus's row"
    for (row, (counts, replied)) in claim.rows.iter().zip(count(writes.iter().map(Write::cell))).enumerate() {
        for column in Column::EVERY {
            let what = format!("{}, row {row}", column.name());
            hold(counts[column], &what, "the drive's replies give", replied[column]);
        }
    }
    let sums = total(&claim.rows);
    for column in Column::EVERY {
        let what = format!("{}, total", column.name());
        hold(claim.totals[column], &what, "its rows add up to", sums[column]);
    }
    // "encrypted total times a rate"
    let amount = claim.totals[Column::Encrypted] * subject.rate;
    hold(claim.amount, "the amount", "its encrypted total times the rate is", amount);
    // "The rows' sum is the number of write events, taken from the file"
    let events = subject.recording.events.iter().filter(|event| event.kind == kind::WRITE).count();
    hold(sums.writes(), "all rows together", "the writes of the recording are", events as u64);
    // "those with a nexus above 15 have a seventeenth row, refused only"
    let above_15 = claim.rows[ROW_ABOVE_15];
    let others = above_15.writes() - above_15[Column::Refused];
    hold(others, "writes of a nexus above 15 that aren't refused", "there are to be", 0);
    said
}
