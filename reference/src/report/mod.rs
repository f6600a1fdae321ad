//! The claim's report: a page of HTML for a person, made from what the proved programs say of a recording, the claim's
//! lines (02, request 11) and the drive's replies. Nothing is decided here, nor is anything of the second account used.
//!
//! - `writes`: what became of each write, as the drive's replies say it.
//! - `held`: the two, held against each other.
//! - `runs`: the writes that aren't claimed, put together where they are alike.
//! - `page`: the page.

mod figures;
mod held;
mod page;
mod runs;
mod writes;

pub use writes::{writes, Fate, Write};

use crate::claim::Claim;
use crate::recording::Recording;
use runs::{runs, Run};

/// What is claimed for.
pub struct Subject<'subject> {
    /// The name of the recording's file, without its folder.
    pub name: &'subject str,
    /// The SHA-256 of the file, in hex.
    pub sha256: &'subject str,
    pub recording: &'subject Recording,
    /// Pence for an encrypted write, at most the highest rate.
    pub rate: u64,
}

/// The page, or how the lines and the replies differ, a line for each difference.
pub fn report(subject: &Subject, lines: &str, writes: &[Write]) -> Result<String, String> {
    let claim = Claim::read(lines)?;
    let differences = held::differences(subject, &claim, writes);
    if !differences.is_empty() {
        return Err(differences.join("\n"));
    }
    Ok(page::page(subject, &claim, lines, &runs(writes)))
}
