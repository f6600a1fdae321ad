//! The other salvager, and a difference between what it salvages and what the library does.

use crate::comparison::recordings::outcome::{Given, Outcome, Wanted};
use crate::comparison::recordings::program::Program;
use crate::salvage::{salvage, Salvaged, UNSALVAGEABLE};

/// The two ways in which a recording is salvaged.
#[derive(Clone, Copy, PartialEq, Eq, Debug)]
pub enum Way {
    File,
    Report,
}

impl Way {
    pub const EVERY: [Way; 2] = [Way::File, Way::Report];

    /// What the library makes of what it salvaged.
    fn wanted(self, salvaged: Option<&Salvaged>) -> Wanted {
        match (salvaged, self) {
            (Some(salvaged), Way::File) => Wanted::Bytes(salvaged.file()),
            (Some(salvaged), Way::Report) => Wanted::Bytes(salvaged.report.lines().into_bytes()),
            (None, _) => Wanted::Refusal(UNSALVAGEABLE),
        }
    }
}

/// A salvager that is compared with the library's.
pub trait Salvager {
    /// What comes of it for a file.
    fn salvage(&self, file: &[u8], way: Way) -> Outcome;
}

/// A function of this process is a salvager too.
impl<Function: Fn(&[u8], Way) -> Given> Salvager for Function {
    fn salvage(&self, file: &[u8], way: Way) -> Outcome {
        Outcome::Given(self(file, way))
    }
}

/// For the report `--report` is appended.
impl Salvager for Program<'_> {
    fn salvage(&self, file: &[u8], way: Way) -> Outcome {
        self.outcome(file, if way == Way::Report { &["--report"] } else { &[] })
    }
}

/// A difference over a recording.
#[derive(Clone, Debug)]
pub struct Difference {
    pub way: Way,
    pub wanted: Wanted,
    pub outcome: Outcome,
}

/// Salvages a recording both ways; the first difference, if any.
pub fn compare(salvager: &dyn Salvager, file: &[u8]) -> Option<Difference> {
    let salvaged = salvage(file);
    Way::EVERY.into_iter().find_map(|way| {
        let (wanted, outcome) = (way.wanted(salvaged.as_ref()), salvager.salvage(file, way));
        (!wanted.is(&outcome)).then_some(Difference { way, wanted, outcome })
    })
}
