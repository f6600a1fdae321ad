//! What a program is asked about a recording, by its arguments.

use super::{History, Question, Refusal};
use crate::digits;

/// What is asked.
#[derive(Clone, Copy, PartialEq, Eq, Debug)]
pub enum Asked {
    One(Question),
    /// Every write that can be tried.
    Every,
    /// The refused writes that the recording has.
    Writes,
}

impl Asked {
    /// `EVENTS NEXUS SUPPORT`, `--every` or `--writes`; nothing for other arguments.
    pub fn read(arguments: &[&str]) -> Option<Asked> {
        match arguments {
            ["--every"] => Some(Asked::Every),
            ["--writes"] => Some(Asked::Writes),
            [events, nexus, support @ ("0" | "1")] => {
                let [events, nexus] = [events, nexus].map(|digits| digits::number(digits, 10));
                Some(Asked::One(Question { events: events?, nexus: nexus?, supported: *support == "1" }))
            }
            _ => None,
        }
    }
}

impl History {
    /// The lines for what is asked.
    pub fn lines(&self, asked: Asked) -> Result<String, Refusal> {
        match asked {
            Asked::One(question) => Ok(self.reason(question)?.lines()),
            Asked::Every => Ok(self.every_reason()),
            Asked::Writes => Ok(self.reasons_of_writes()),
        }
    }
}
