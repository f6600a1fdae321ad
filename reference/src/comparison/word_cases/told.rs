//! Who is told of a change, and who isn't.

use super::WordCase;
use crate::account::{Account, Rule};
use crate::codes::scope;
use crate::sizes::NEXUSES;
use crate::stream::{kind, Command};

/// A call that can change what a nexus selects.
#[derive(Clone, Copy, PartialEq, Eq, PartialOrd, Ord, Debug)]
pub enum By {
    PublicPage,
    LocalPage,
    AllPage,
    Event(u8),
}

impl By {
    pub const EVERY: [By; 9] = [
        By::PublicPage,
        By::LocalPage,
        By::AllPage,
        By::Event(kind::DEMOUNT),
        By::Event(kind::NEXUS_RESERVATION_LOSS),
        By::Event(kind::DEVICE_RESERVATION_LOSS),
        By::Event(kind::PREEMPT),
        By::Event(kind::MICROCODE),
        By::Event(kind::VENDOR_RELEASE),
    ];

    /// Those that can release a LOCAL place: device reservation loss is about place 0 alone.
    pub const OF_RELEASE: [By; 8] = [
        By::PublicPage,
        By::LocalPage,
        By::AllPage,
        By::Event(kind::DEMOUNT),
        By::Event(kind::NEXUS_RESERVATION_LOSS),
        By::Event(kind::PREEMPT),
        By::Event(kind::MICROCODE),
        By::Event(kind::VENDOR_RELEASE),
    ];

    /// What a call is, if it is one of these.
    pub fn of(command: &Command) -> Option<By> {
        match (command.kind, command.data.get(4).map(|byte| byte >> 5)) {
            (kind::OUT, Some(scope::PUBLIC)) => Some(By::PublicPage),
            (kind::OUT, Some(scope::LOCAL)) => Some(By::LocalPage),
            (kind::OUT, Some(scope::ALL)) => Some(By::AllPage),
            (kind @ kind::DEMOUNT..=kind::VENDOR_RELEASE, _) => Some(By::Event(kind)),
            _ => None,
        }
    }

    /// How the call can change what others select. A PUBLIC page releases its own sender's place; the sets that a page, or a
    /// nexus reservation loss, takes from others are LOCAL ones; an ALL page and a device reservation loss are about place 0.
    fn can_tell(self) -> &'static [How] {
        match self {
            By::PublicPage => &[],
            By::AllPage | By::Event(kind::DEVICE_RESERVATION_LOSS) => &[How::NumberAlone],
            By::LocalPage | By::Event(kind::NEXUS_RESERVATION_LOSS) => {
                &[How::PlaceAndNumber, How::PlaceAlone]
            }
            By::Event(_) => &[How::PlaceAndNumber, How::PlaceAlone, How::NumberAlone],
        }
    }

    /// Whether there is an acting nexus: "page sender or preemptor".
    fn has_acting_nexus(self) -> bool {
        matches!(self, By::PublicPage | By::LocalPage | By::AllPage | By::Event(kind::PREEMPT))
    }

    /// Whether a nexus is the acting one of the call.
    pub fn is_acting(self, nexus: usize, command: &Command) -> bool {
        self.has_acting_nexus() && usize::from(command.nexus) == nexus
    }
}

/// What differs for a nexus that is told: its bit is in another word, the number of its place is another, or both.
#[derive(Clone, Copy, PartialEq, Eq, PartialOrd, Ord, Debug)]
pub enum How {
    PlaceAndNumber,
    PlaceAlone,
    NumberAlone,
}

/// Why a nexus isn't told.
#[derive(Clone, Copy, PartialEq, Eq, PartialOrd, Ord, Debug)]
pub enum Why {
    ActingNexus,
    NotRegistered,
    Unchanged,
}

/// Every case of those who are told and who aren't.
pub fn every() -> Vec<WordCase> {
    let mut every = Vec::new();
    for by in By::EVERY {
        every.extend(by.can_tell().iter().map(|&how| WordCase::Told { by, how }));
        if !by.can_tell().is_empty() {
            every.extend((0..NEXUSES).map(|nexus| WordCase::NexusTold { by, nexus }));
        }
        every.extend([Why::NotRegistered, Why::Unchanged].map(|why| WordCase::NotTold { by, why }));
        if by.has_acting_nexus() {
            every.push(WordCase::NotTold { by, why: Why::ActingNexus });
        }
    }
    every
}

/// Those who are told of a call and who aren't, by its account.
pub fn of(command: &Command, account: &Account) -> Vec<WordCase> {
    let Some(by) = By::of(command) else { return Vec::new() };
    let tells = |rule, nexus| account.steps.iter().any(|step| (step.rule, step.nexus) == (rule, nexus));
    let mut cases = Vec::new();
    for step in &account.steps {
        match step.rule {
            Rule::FlagsAnotherNexus | Rule::FlagsVendorEvent => {
                let number_is_same = tells(Rule::FlagsForPlaceAlone, step.nexus);
                let place_is_same = tells(Rule::FlagsForNumberAlone, step.nexus);
                let how = match (number_is_same, place_is_same) {
                    (true, _) => How::PlaceAlone,
                    (_, true) => How::NumberAlone,
                    _ => How::PlaceAndNumber,
                };
                cases.push(WordCase::Told { by, how });
                cases.extend(step.nexus.map(|nexus| WordCase::NexusTold { by, nexus }));
            }
            Rule::NoFlagForActingNexus => cases.push(WordCase::NotTold { by, why: Why::ActingNexus }),
            Rule::NoFlagWhenNotRegistered => cases.push(WordCase::NotTold { by, why: Why::NotRegistered }),
            Rule::NoFlagForUnchangedSelection => cases.push(WordCase::NotTold { by, why: Why::Unchanged }),
            _ => {}
        }
    }
    cases
}
