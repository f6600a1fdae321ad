//! The other replayer, and a difference between its replay and the library's.

use super::outcome::{Given, Outcome, Wanted};
use crate::record_bytes;
use crate::recording::{replay, Replayed, Verdict};

/// The two ways in which a recording is replayed.
#[derive(Clone, Copy, PartialEq, Eq, Debug)]
pub enum Way {
    Answers,
    Record,
}

impl Way {
    pub const EVERY: [Way; 2] = [Way::Answers, Way::Record];

    /// What the library's replay makes of it.
    fn wanted(self, replayed: &Replayed) -> Wanted {
        match (replayed.verdict, self) {
            (Verdict::Taken, Way::Answers) => Wanted::Bytes(replayed.answers.clone()),
            (Verdict::Taken, Way::Record) => Wanted::Bytes(record_bytes::give(&replayed.record)),
            (verdict, _) => Wanted::Refusal(verdict.number()),
        }
    }
}

/// A replayer that is compared with the library's.
pub trait Replayer {
    /// What comes of it for a file.
    fn replay(&self, file: &[u8], way: Way) -> Outcome;
}

/// A function of this process is a replayer too.
impl<Function: Fn(&[u8], Way) -> Given> Replayer for Function {
    fn replay(&self, file: &[u8], way: Way) -> Outcome {
        Outcome::Given(self(file, way))
    }
}

/// A difference over a recording.
#[derive(Clone, Debug)]
pub struct Difference {
    pub way: Way,
    pub wanted: Wanted,
    pub outcome: Outcome,
}

/// Replays a recording both ways; the first difference, if any.
pub fn compare(replayer: &dyn Replayer, file: &[u8]) -> Option<Difference> {
    let replayed = replay(file);
    Way::EVERY.into_iter().find_map(|way| {
        let (wanted, outcome) = (way.wanted(&replayed), replayer.replay(file, way));
        (!wanted.is(&outcome)).then_some(Difference { way, wanted, outcome })
    })
}
