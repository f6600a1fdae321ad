//! The comparison of the library's salvage with another program's: the new file and the report, or 21, over recordings
//! that are damaged and that aren't.

mod directed;
mod random;
mod reached;
mod report;
mod salvager;
mod shapes;

pub use super::recordings::{Case, Conclusion, Found, Given, Settings};
pub use salvager::{Salvager, Way};

use super::recordings::course::{run_through, Draw};
use super::recordings::{shrink, told};
use random::RandomSalvages;
use reached::Reached;

/// Runs a comparison and prints what it came to; whether all was equal and all was reached.
pub fn run(settings: &Settings) -> bool {
    told(settings, |program| run_on(&program, settings.seed, settings.recordings))
}

/// Runs a comparison with a salvager: the directed recordings, and so many random ones.
pub fn run_on(salvager: &dyn Salvager, seed: u64, recordings: u64) -> Conclusion {
    let mut random = RandomSalvages::new(seed);
    let find = |case: &Case| difference_over(case, salvager, true);
    run_through::<Reached>(directed(), || random.recording(), Draw { seed, recordings }, &find)
}

/// The directed recordings, which are always the same.
pub fn directed() -> Vec<Case> {
    let mut cases = Vec::new();
    directed::recordings(&mut |case| cases.push(case));
    cases
}

/// Random recordings, of a seed.
pub fn random(seed: u64, recordings: usize) -> Vec<Case> {
    let mut random = RandomSalvages::new(seed);
    (0..recordings).map(|_| random.recording()).collect()
}

/// The first of some recordings over which a salvager differs from the library, made short if that is asked for.
pub fn first_difference(cases: &[Case], salvager: &dyn Salvager, made_short: bool) -> Option<Found> {
    cases.iter().find_map(|case| difference_over(case, salvager, made_short))
}

/// A difference over a recording, if there is one.
fn difference_over(case: &Case, salvager: &dyn Salvager, made_short: bool) -> Option<Found> {
    let compare = |file: &[u8]| salvager::compare(salvager, file);
    let short = shrink::difference(&case.file, &compare, made_short)?;
    Some(Found { text: report::difference_text(case, &short), file: short.file })
}
