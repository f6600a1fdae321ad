//! The comparison of the library's claim with another program's: the text, or the number of the refusal, over
//! recordings that are sound and that aren't, each at a rate.

mod case;
mod claimer;
mod directed;
mod random;
mod rates;
mod reached;
mod report;
mod writes;

pub use super::recordings::{Conclusion, Found, Given, Settings};
pub use case::Case;
pub use claimer::Claimer;

use super::recordings::course::{run_through, Draw};
use super::recordings::{shrink, told};
use crate::stream::Command;
use random::RandomClaims;
use reached::Reached;

/// Runs a comparison and prints what it came to; whether all was equal and all was reached.
pub fn run(settings: &Settings) -> bool {
    told(settings, |program| run_on(&program, settings.seed, settings.recordings))
}

/// Runs a comparison with a claimer: the directed recordings, and so many random ones.
pub fn run_on(claimer: &dyn Claimer, seed: u64, recordings: u64) -> Conclusion {
    let mut random = RandomClaims::new(seed);
    let find = |case: &Case| difference_over(case, claimer, true);
    run_through::<Reached>(directed(), || random.case(), Draw { seed, recordings }, &find)
}

/// The directed recordings with their rates, which are always the same.
pub fn directed() -> Vec<Case> {
    let mut cases = Vec::new();
    directed::cases(&mut |case| cases.push(case));
    cases
}

/// Sessions of writes with their names, those that the claim's recordings are made of and that need not be long.
pub(super) fn sessions() -> Vec<(String, Vec<Command>)> {
    directed::sessions()
}

/// Random recordings with their rates, of a seed.
pub fn random(seed: u64, recordings: usize) -> Vec<Case> {
    let mut random = RandomClaims::new(seed);
    (0..recordings).map(|_| random.case()).collect()
}

/// The first of some recordings over which a claimer differs from the library, made short if that is asked for.
pub fn first_difference(cases: &[Case], claimer: &dyn Claimer, made_short: bool) -> Option<Found> {
    cases.iter().find_map(|case| difference_over(case, claimer, made_short))
}

/// A difference over a recording at its rate, if there is one.
fn difference_over(case: &Case, claimer: &dyn Claimer, made_short: bool) -> Option<Found> {
    let compare = |file: &[u8]| claimer::compare(claimer, file, &case.rate);
    let short = shrink::difference(&case.recording.file, &compare, made_short)?;
    Some(Found { text: report::difference_text(case, &short), file: short.file })
}
