//! The other claimer, and a difference between its claim and the library's.

use crate::claim::second_account::claim;
use crate::claim::Rate;
use crate::comparison::recordings::outcome::{Given, Outcome, Wanted};
use crate::comparison::recordings::program::Program;

/// A claimer that is compared with the library's.
pub trait Claimer {
    /// What comes of it for a file at a rate.
    fn claim(&self, file: &[u8], rate: &str) -> Outcome;
}

/// A function of this process is a claimer too.
impl<Function: Fn(&[u8], &str) -> Given> Claimer for Function {
    fn claim(&self, file: &[u8], rate: &str) -> Outcome {
        Outcome::Given(self(file, rate))
    }
}

/// The rate is appended to its arguments.
impl Claimer for Program<'_> {
    fn claim(&self, file: &[u8], rate: &str) -> Outcome {
        self.outcome(file, &[rate])
    }
}

/// A difference over a recording at a rate.
#[derive(Clone, Debug)]
pub struct Difference {
    pub wanted: Wanted,
    pub outcome: Outcome,
}

/// What the library's claim comes to. A rate that is no number comes before anything in the file.
fn wanted(file: &[u8], rate: &str) -> Wanted {
    match Rate::read(rate).map(|rate| claim(file, rate)) {
        None => Wanted::Usage,
        Some(Ok(claim)) => Wanted::Bytes(claim.text().into_bytes()),
        Some(Err(refusal)) => Wanted::Refusal(refusal.number()),
    }
}

/// Claims a recording on both sides; the difference, if any.
pub fn compare(claimer: &dyn Claimer, file: &[u8], rate: &str) -> Option<Difference> {
    let (wanted, outcome) = (wanted(file, rate), claimer.claim(file, rate));
    (!wanted.is(&outcome)).then_some(Difference { wanted, outcome })
}
