//! The other reasoner, and a difference between its reasons and the library's.

use super::case::Way;
use crate::comparison::recordings::outcome::{Given, Outcome, Wanted};
use crate::comparison::recordings::program::Program;
use crate::why::{Asked, History, Refusal};

/// A reasoner that is compared with the library's.
pub trait Reasoner {
    /// What comes of it for a file with some arguments.
    fn reasons(&self, file: &[u8], arguments: &[&str]) -> Outcome;
}

/// A function of this process is a reasoner too.
impl<Function: Fn(&[u8], &[&str]) -> Given> Reasoner for Function {
    fn reasons(&self, file: &[u8], arguments: &[&str]) -> Outcome {
        Outcome::Given(self(file, arguments))
    }
}

/// The arguments are appended to its own.
impl Reasoner for Program<'_> {
    fn reasons(&self, file: &[u8], arguments: &[&str]) -> Outcome {
        self.outcome(file, arguments)
    }
}

/// A difference over a recording, with what was asked.
#[derive(Clone, Debug)]
pub struct Difference {
    pub arguments: Vec<String>,
    pub wanted: Wanted,
    pub outcome: Outcome,
}

/// What the library gives for a file's history.
fn wanted(history: &Result<History, Refusal>, arguments: &[&str]) -> Wanted {
    let Some(asked) = Asked::read(arguments) else { return Wanted::Usage };
    match history.as_ref().map_err(|refusal| *refusal).and_then(|history| history.lines(asked)) {
        Ok(lines) => Wanted::Bytes(lines.into_bytes()),
        Err(refusal) => Wanted::Refusal(refusal.number()),
    }
}

/// Asks both sides about a recording in some ways; the first difference, if any.
pub fn compare(reasoner: &dyn Reasoner, file: &[u8], ways: &[Way]) -> Option<Difference> {
    let history = History::read(file);
    ways.iter().find_map(|way| {
        let arguments = way.arguments(file);
        let texts: Vec<&str> = arguments.iter().map(String::as_str).collect();
        let (wanted, outcome) = (wanted(&history, &texts), reasoner.reasons(file, &texts));
        (!wanted.is(&outcome)).then_some(Difference { arguments, wanted, outcome })
    })
}
