//! The comparison of the library's replay with another program's: verdict, answers and the record at the end, over
//! recordings that are sound and that aren't.

pub(super) mod builder;
pub(super) mod case;
pub(super) mod counts;
pub(super) mod course;
mod directed;
pub(super) mod outcome;
pub(super) mod program;
pub(super) mod random;
pub(super) mod reached;
mod replayer;
pub(super) mod report;
pub(super) mod shrink;

pub use case::Case;
pub use course::{Conclusion, Found};
pub use outcome::Given;
pub use replayer::{Replayer, Way};

use course::Draw;
use program::Program;
use random::RandomRecordings;
use reached::Reached;

/// How a comparison is run.
#[derive(Clone, Debug)]
pub struct Settings {
    /// The other program and its arguments.
    pub program: Vec<String>,
    pub seed: u64,
    /// The number of random recordings.
    pub recordings: u64,
}

/// Runs a comparison and prints what it came to; whether all was equal and all was reached.
pub fn run(settings: &Settings) -> bool {
    told(settings, |program| run_on(&program, settings.seed, settings.recordings))
}

/// Prints the seed, and what a comparison with the settings' program comes to.
pub(super) fn told<'settings>(
    settings: &'settings Settings,
    run_on: impl Fn(Program<'settings>) -> Conclusion,
) -> bool {
    println!("seed {}", settings.seed);
    let conclusion = run_on(Program(&settings.program));
    print!("{}", conclusion.text);
    conclusion.is_right
}

/// Runs a comparison with a replayer: the directed recordings, and so many random ones.
pub fn run_on(replayer: &dyn Replayer, seed: u64, recordings: u64) -> Conclusion {
    let mut random = RandomRecordings::new(seed);
    let find = |case: &Case| difference_over(case, replayer, true);
    course::run_through::<Reached>(directed(), || random.recording(), Draw { seed, recordings }, &find)
}

/// The directed recordings, which are always the same.
pub fn directed() -> Vec<Case> {
    let mut cases = Vec::new();
    directed::recordings(&mut |case| cases.push(case));
    cases
}

/// The first of some recordings over which a replayer differs from the library, made short if that is asked for.
pub fn first_difference(cases: &[Case], replayer: &dyn Replayer, made_short: bool) -> Option<Found> {
    cases.iter().find_map(|case| difference_over(case, replayer, made_short))
}

/// A difference over a recording, if there is one.
fn difference_over(case: &Case, replayer: &dyn Replayer, made_short: bool) -> Option<Found> {
    let compare = |file: &[u8]| replayer::compare(replayer, file);
    let short = shrink::difference(&case.file, &compare, made_short)?;
    Some(Found { text: report::difference_text(case, &short), file: short.file })
}
