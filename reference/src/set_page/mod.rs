//! 01, "The Set Data Encryption page (0010h)": the page's check and what an accepted page says.

mod fields;
mod rules;

pub use fields::{Parameters, Request, SupplementalKey};
pub use rules::{broken_rules, PageRule};

use crate::answer::{Broken, Refused};
use crate::record::Set;

/// Bytes 0 to 19, before the key.
pub const HEADER_BYTES: usize = 20;

/// What the check reads of the record: the sender's scope and its selected set.
#[derive(Clone, Copy, Debug)]
pub struct Sender<'record> {
    pub scope: u8,
    pub set: &'record Set,
}

/// A refused page: the answer, and every rule it breaks.
#[derive(Clone, PartialEq, Eq, Debug)]
pub struct Fault {
    pub answer: Refused,
    pub broken: Vec<Broken<PageRule>>,
}

/// Answers 7 and 8 of 01 for a page, or what the page asks for.
pub fn check(page: &[u8], sender: Sender) -> Result<Request, Fault> {
    let broken = broken_rules(page, sender);
    match Refused::of_page(&broken) {
        Some(answer) => Err(Fault { answer, broken }),
        None => Ok(fields::request(page)),
    }
}
