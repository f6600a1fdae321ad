//! docs/REASONS.md: the two lines of a reason; the reasons of every write that can be tried, and of those that a recording
//! has.

use super::{Deed, History, InUse, Question, Reason, Touch};
use crate::codes::encryption;
use crate::names::{name_of, CALLS, ENCRYPTION_MODES, WRITTEN};
use crate::recording::fields_of;
use crate::sizes::NEXUSES;
use crate::stream::kind;
use std::fmt::{self, Display, Formatter};

impl Reason {
    /// The two lines.
    pub fn lines(&self) -> String {
        let first = match self {
            Reason::Locked(Touch { kind, position, .. }) => format!("{} {kind} {position}", self.answer()),
            _ => self.answer().to_string(),
        };
        format!("{first}\n{}\n", self.sentence())
    }

    /// The second line.
    pub fn sentence(&self) -> String {
        match self {
            Reason::Passes(InUse { place, encryption }) => {
                let written = goes_down(*encryption);
                format!(
                    "nothing stops this write: its block goes down {written} under the set in place {place}"
                )
            }
            Reason::NoSuchNexus => "the drive has no nexus of that number".to_string(),
            Reason::Pending(_, touch) => {
                format!("a unit attention is pending: {touch}, which this nexus used")
            }
            Reason::Locked(touch) => format!("the nexus is locked: {touch}, which this nexus used"),
            Reason::NotSupported(InUse { place, encryption }) => {
                let mode = name_of(&ENCRYPTION_MODES, *encryption).unwrap_or_default();
                format!(
                    "the set in place {place} has encryption mode {encryption} ({mode}), and the volume doesn't \
                     support it"
                )
            }
        }
    }
}

/// "A block goes down `clear` under encryption mode 0, `external` under 1, `encrypted` under any other."
fn goes_down(mode: u8) -> &'static str {
    let [clear, external, encrypted] = WRITTEN;
    match mode {
        encryption::DISABLE => clear,
        encryption::EXTERNAL => external,
        _ => encrypted,
    }
}

impl Display for Touch {
    /// The event and what it did.
    fn fmt(&self, formatter: &mut Formatter) -> fmt::Result {
        let Touch { position, kind, nexus, place, deed } = self;
        write!(formatter, "event {position} ({}", call_name(*kind))?;
        if fields_of(*kind).is_some_and(|fields| fields.nexus) {
            write!(formatter, ", nexus {nexus}")?;
        }
        let deed = match deed {
            Deed::Established => "established a set",
            Deed::Replaced => "replaced the set",
            Deed::Evicted => "evicted the set",
            Deed::Released => "released the set",
        };
        write!(formatter, ") {deed} in place {place}")
    }
}

/// A kind by its name in full.
fn call_name(kind: u8) -> &'static str {
    match kind {
        kind::IN => "SECURITY PROTOCOL IN",
        kind::OUT => "SECURITY PROTOCOL OUT",
        kind => name_of(&CALLS, kind).unwrap_or_default(),
    }
}

impl History {
    /// Every write that can be tried: after each number of events, of each nexus and of one above 15, without support
    /// and with it.
    pub fn questions(&self) -> impl Iterator<Item = Question> {
        let events = 0..=self.calls.len() as u64;
        events.flat_map(|events| {
            (0..=NEXUSES as u64)
                .flat_map(move |nexus| [false, true].map(|supported| Question { events, nexus, supported }))
        })
    }

    /// The lines of the reasons for all of them.
    pub fn every_reason(&self) -> String {
        let reasons = self.questions().filter_map(|question| self.reason(question).ok());
        reasons.map(|reason| reason.lines()).collect()
    }

    /// The recording's own writes "answered other than 0", with their positions.
    pub fn refused_writes(&self) -> impl Iterator<Item = (usize, Reason)> + '_ {
        let writes = self.calls.iter().enumerate().filter(|(_, call)| call.event.kind == kind::WRITE);
        writes.filter(|(_, call)| call.answer != 0).filter_map(|(position, call)| {
            let (nexus, supported) = (call.event.nexus.into(), call.event.argument == 1);
            let question = Question { events: position as u64, nexus, supported };
            Some((position, self.reason(question).ok()?))
        })
    }

    /// A line for each of them: its position and the second line of its reason.
    pub fn reasons_of_writes(&self) -> String {
        let line = |(position, reason): (usize, Reason)| format!("{position} {}\n", reason.sentence());
        self.refused_writes().map(line).collect()
    }
}
