//! The comparison of the library's reasons with another program's: the lines for every write that can be tried after
//! every number of events, those for the refused writes of a recording, and single ones at the limits of the numbers.

mod case;
mod directed;
mod past;
mod random;
mod reached;
mod reasoner;
mod report;
mod situations;

pub use super::recordings::{Conclusion, Found, Given, Settings};
pub use case::{Case, MOST_EVENTS};
pub use reasoner::Reasoner;

use super::recordings::course::{run_through, Draw};
use super::recordings::{shrink, told};
use random::RandomReasons;
use reached::Reached;

/// Runs a comparison and prints what it came to; whether all was equal and all was reached.
pub fn run(settings: &Settings) -> bool {
    told(settings, |program| run_on(&program, settings.seed, settings.recordings))
}

/// Runs a comparison with a reasoner: the directed recordings, and so many random ones.
pub fn run_on(reasoner: &dyn Reasoner, seed: u64, recordings: u64) -> Conclusion {
    let mut random = RandomReasons::new(seed);
    let find = |case: &Case| difference_over(case, reasoner, true);
    run_through::<Reached>(directed(), || random.case(), Draw { seed, recordings }, &find)
}

/// The directed recordings with what is asked about them, which are always the same.
pub fn directed() -> Vec<Case> {
    let mut cases = Vec::new();
    directed::cases(&mut |case| cases.push(case));
    cases
}

/// Random recordings with what is asked about them, of a seed.
pub fn random(seed: u64, recordings: usize) -> Vec<Case> {
    let mut random = RandomReasons::new(seed);
    (0..recordings).map(|_| random.case()).collect()
}

/// The first of some recordings over which a reasoner differs from the library, made short if that is asked for.
pub fn first_difference(cases: &[Case], reasoner: &dyn Reasoner, made_short: bool) -> Option<Found> {
    cases.iter().find_map(|case| difference_over(case, reasoner, made_short))
}

/// A difference over a recording, if there is one.
fn difference_over(case: &Case, reasoner: &dyn Reasoner, made_short: bool) -> Option<Found> {
    let compare = |file: &[u8]| reasoner::compare(reasoner, file, &case.ways);
    let short = shrink::difference(&case.recording.file, &compare, made_short)?;
    Some(Found { text: report::difference_text(case, &short), file: short.file })
}
