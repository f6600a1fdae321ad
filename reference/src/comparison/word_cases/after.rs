//! The calls after which kind 13 is asked about each place.

use crate::account::{Account, Rule};
use crate::codes::scope;
use crate::record::{Nexus, Record};
use crate::sizes::PLACES;
use crate::stream::{kind, Command, Reply};

/// A call by what it can do to the words.
#[derive(Clone, Copy, PartialEq, Eq, PartialOrd, Ord, Debug)]
pub enum After {
    PowerOn,
    Loaded,
    /// A PUBLIC page from a nexus of this scope.
    Public {
        from: u8,
    },
    LocalInEmptyPlace {
        from: u8,
    },
    LocalInOwnPlace,
    LocalEvicts {
        from: u8,
    },
    /// An ALL page, by its sender's scope and by whether another nexus was ALL.
    All {
        from: u8,
        replaces: bool,
    },
    SupplementalKey {
        scope: u8,
    },
    Event {
        kind: u8,
        releases: bool,
    },
    VendorRelease {
        place: usize,
        releases: bool,
    },
    LogicalUnitReset,
    /// IN, a write or a read that is done, or a batch that is taken.
    Done(u8),
    Refused(u8),
}

impl After {
    /// Every call.
    pub fn every() -> Vec<After> {
        let mut every = vec![After::PowerOn, After::Loaded, After::LocalInOwnPlace, After::LogicalUnitReset];
        every.extend([scope::PUBLIC, scope::LOCAL, scope::ALL].map(|from| After::Public { from }));
        for from in [scope::PUBLIC, scope::ALL] {
            every.extend([After::LocalInEmptyPlace { from }, After::LocalEvicts { from }]);
        }
        for from in [scope::PUBLIC, scope::LOCAL] {
            every.extend([false, true].map(|replaces| After::All { from, replaces }));
        }
        // another nexus can't be ALL beside its sender
        every.push(After::All { from: scope::ALL, replaces: false });
        every.extend([scope::LOCAL, scope::ALL].map(|scope| After::SupplementalKey { scope }));
        for kind in kind::DEMOUNT..kind::VENDOR_RELEASE {
            every.extend([false, true].map(|releases| After::Event { kind, releases }));
        }
        for place in 0..PLACES {
            every.extend([false, true].map(|releases| After::VendorRelease { place, releases }));
        }
        every.extend([kind::IN, kind::WRITE, kind::READ, kind::BATCH].map(After::Done));
        every.extend((2..=18).chain([22]).map(After::Refused));
        every
    }

    /// What a call is, if it is one of these.
    pub fn of(command: &Command, before: &Record, reply: &Reply, account: &Account) -> Option<After> {
        if reply.number != 0 {
            return Some(After::Refused(reply.number));
        }
        let releases = account.tells(Rule::Releases);
        match command.kind {
            kind::POWER_ON => Some(After::PowerOn),
            kind::LOAD_RECORD => Some(After::Loaded),
            kind::OUT => After::of_page(command, before, account),
            kind::LOGICAL_UNIT_RESET => Some(After::LogicalUnitReset),
            kind::VENDOR_RELEASE => {
                Some(After::VendorRelease { place: usize::from(command.argument), releases })
            }
            kind @ kind::DEMOUNT..kind::VENDOR_RELEASE => Some(After::Event { kind, releases }),
            kind @ (kind::IN | kind::WRITE | kind::READ | kind::BATCH) => Some(After::Done(kind)),
            _ => None,
        }
    }

    /// What a page that is taken is.
    fn of_page(command: &Command, before: &Record, account: &Account) -> Option<After> {
        let sender = usize::from(command.nexus);
        let from = before.nexuses[sender].scope;
        let (scope, sdk) = (command.data[4] >> 5, command.data[5] & 0x08 != 0);
        let was_all = |(nexus, it): (usize, &Nexus)| nexus != sender && it.scope == scope::ALL;
        match (scope, sdk) {
            (scope::PUBLIC, _) => Some(After::Public { from }),
            (_, true) => Some(After::SupplementalKey { scope }),
            (scope::ALL, _) => {
                Some(After::All { from, replaces: before.nexuses.iter().enumerate().any(was_all) })
            }
            _ if account.tells(Rule::LocalTakesPresentPlace) => Some(After::LocalInOwnPlace),
            _ if account.tells(Rule::LocalTakesPlaceOfUnlockedOwner) => Some(After::LocalEvicts { from }),
            _ => Some(After::LocalInEmptyPlace { from }),
        }
    }
}
