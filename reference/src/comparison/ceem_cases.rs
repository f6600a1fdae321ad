//! What counts 02's request 2: pages by CEEM and decryption mode, where its rule is asked and where it isn't; calls
//! for sets that no page can bring any more ("held sets"); and status pages by CEEMS and modes.

use super::page_builder::SetPage;
use super::report::kind_name;
use crate::account::{Account, Rule};
use crate::codes::{ceem, decryption, encryption, page_code, scope, LARGEST_CEEM};
use crate::record::{Record, Set};
use crate::set_page::PageRule;
use crate::sizes::PLACES;
use crate::stream::{kind, Command, Reply};
use std::fmt;
use std::ops::Range;

/// Something about CEEM to come to.
#[derive(Clone, Copy, PartialEq, Eq, PartialOrd, Ord, Debug)]
pub enum CeemCase {
    /// A page of LOCAL or ALL with SDK 0: taken, or refused by the request's rule alone.
    Page { scope: u8, encryption: u8, ceem: u8, decryption: u8 },
    /// A PUBLIC page, taken.
    PublicPage { sdk: bool, ceem: u8, decryption: u8 },
    /// A supplemental key: appended, or refused for its mode alone.
    SupplementalKey { scope: u8, ceem: u8, decryption: u8 },
    /// The lab's page, as it came or with another scope and SDK.
    LabsPage { scope: u8, sdk: bool },
    /// A call done for a set with CEEM 10b or 11b and decryption DISABLE.
    HeldSet { kind: u8, place: u8, ceem: u8 },
    /// A status page that the status reader took.
    StatusPage { encryption: u8, ceems: u8, decryption: u8 },
}

/// The places of an ALL set and of LOCAL sets.
const EVERY_PLACE: Range<u8> = 0..PLACES as u8;
/// The calls done for a held set, and the places in which they meet it.
const CALLS_FOR_SETS: [(u8, Range<u8>); 11] = [
    (kind::IN, EVERY_PLACE),
    (kind::OUT, EVERY_PLACE),
    (kind::WRITE, EVERY_PLACE),
    (kind::LOGICAL_UNIT_RESET, EVERY_PLACE),
    (kind::DEMOUNT, EVERY_PLACE),
    (kind::NEXUS_RESERVATION_LOSS, 1..EVERY_PLACE.end),
    (kind::DEVICE_RESERVATION_LOSS, 0..1),
    (kind::PREEMPT, EVERY_PLACE),
    (kind::MICROCODE, EVERY_PLACE),
    (kind::VENDOR_RELEASE, EVERY_PLACE),
    (kind::READ, EVERY_PLACE),
];

impl CeemCase {
    /// Every case.
    pub fn every() -> Vec<CeemCase> {
        let mut every = Vec::new();
        let scopes = [scope::LOCAL, scope::ALL];
        for ceem in 0..=LARGEST_CEEM {
            for decryption in decryption::DISABLE..=decryption::MIXED {
                for encryption in encryption::DISABLE..=encryption::ENCRYPT {
                    every.extend(scopes.map(|scope| CeemCase::Page { scope, encryption, ceem, decryption }));
                    every.push(CeemCase::StatusPage { encryption, ceems: ceem, decryption });
                }
                every.extend(scopes.map(|scope| CeemCase::SupplementalKey { scope, ceem, decryption }));
                every.extend([false, true].map(|sdk| CeemCase::PublicPage { sdk, ceem, decryption }));
            }
        }
        for scope in [scope::PUBLIC, scope::LOCAL, scope::ALL] {
            every.extend([false, true].map(|sdk| CeemCase::LabsPage { scope, sdk }));
        }
        for (kind, places) in CALLS_FOR_SETS {
            for ceem in [ceem::REPORTS_EXTERNAL, ceem::REPORTS_ENCRYPT] {
                every.extend(places.clone().map(|place| CeemCase::HeldSet { kind, place, ceem }));
            }
        }
        every
    }

    /// The cases that a call came to, over the record before it.
    pub fn of(command: &Command, before: &Record, reply: &Reply, account: &Account) -> Vec<CeemCase> {
        let mut cases = Vec::new();
        if command.kind == kind::OUT && matches!(reply.number, 0 | 8) {
            cases.extend(page(&command.data, account));
            cases.extend(labs_page(&command.data));
        }
        if reply.number == 0 {
            cases.extend(held_sets(command, before, account));
            cases.extend(status_page(command));
        }
        cases
    }

    /// The group it is counted in.
    pub fn group(self) -> &'static str {
        match self {
            CeemCase::Page { .. } => "pages by CEEM and modes",
            CeemCase::PublicPage { .. } => "PUBLIC pages by CEEM and decryption mode",
            CeemCase::SupplementalKey { .. } => "supplemental keys by CEEM and decryption mode",
            CeemCase::LabsPage { .. } => "the lab's page",
            CeemCase::HeldSet { .. } => "calls for sets with CEEM 10b or 11b and DISABLE",
            CeemCase::StatusPage { .. } => "status pages read, by CEEMS and modes",
        }
    }
}

/// The case of a page that was looked at, if no field is at fault but those the case is about.
fn page(page: &[u8], account: &Account) -> Option<CeemCase> {
    let (scope, ceem, sdk) = (page[4] >> 5, page[5] >> 6, page[5] & 0x08 != 0);
    let (encryption, decryption) = (page[6], page[7]);
    let (case, fault) = match (scope, sdk) {
        (scope::PUBLIC, _) => (CeemCase::PublicPage { sdk, ceem, decryption }, None),
        (_, true) => {
            (CeemCase::SupplementalKey { scope, ceem, decryption }, Some(PageRule::SupplementalModeReads))
        }
        (_, false) => (
            CeemCase::Page { scope, encryption, ceem, decryption },
            Some(PageRule::CeemWithDecryptionDisable),
        ),
    };
    let counts = match account.page_rules[..] {
        [] => true,
        [broken] => Some(broken.rule) == fault,
        _ => false,
    };
    counts.then_some(case)
}

/// The case of the lab's page.
fn labs_page(page: &[u8]) -> Option<CeemCase> {
    let (scope, sdk) = (page[4] >> 5, page[5] & 0x08 != 0);
    let labs = SetPage { scope, sdk, ..SetPage::labs() };
    (page == labs.bytes()).then_some(CeemCase::LabsPage { scope, sdk })
}

/// The cases of a call that was done: it used, replaced or released a held set, or left it (reset).
fn held_sets(command: &Command, before: &Record, account: &Account) -> Vec<CeemCase> {
    let (kind, nexus) = (command.kind, usize::from(command.nexus));
    let met = |place: usize| match kind {
        kind::IN => command.argument == page_code::STATUS && before.selected_place(nexus) == place,
        kind::WRITE | kind::READ => before.selected_place(nexus) == place,
        kind::OUT => tells(account, &[Rule::EstablishesWithKey, Rule::EstablishesWithoutKey], place),
        kind::LOGICAL_UNIT_RESET => true,
        kind::DEMOUNT..=kind::VENDOR_RELEASE => tells(account, &[Rule::Releases], place),
        _ => false,
    };
    let places = (0..PLACES).filter(|&place| is_held(&before.places[place]) && met(place));
    places
        .map(|place| CeemCase::HeldSet { kind, place: place as u8, ceem: before.places[place].ceem })
        .collect()
}

/// The case of a status page that was read.
fn status_page(command: &Command) -> Option<CeemCase> {
    if command.kind != kind::READ_STATUS {
        return None;
    }
    let page = &command.data;
    Some(CeemCase::StatusPage { encryption: page[5], ceems: page[12] >> 1, decryption: page[6] })
}

/// Whether one of the rules was at work on a place.
fn tells(account: &Account, rules: &[Rule], place: usize) -> bool {
    account.steps.iter().any(|step| rules.contains(&step.rule) && step.place == Some(place))
}

/// Whether a set has what no page can bring any more.
fn is_held(set: &Set) -> bool {
    set.is_used() && set.ceem >= ceem::REPORTS_EXTERNAL && set.decryption == decryption::DISABLE
}

impl fmt::Display for CeemCase {
    fn fmt(&self, formatter: &mut fmt::Formatter) -> fmt::Result {
        match *self {
            CeemCase::Page { scope, encryption, ceem, decryption } => write!(
                formatter,
                "scope {scope}, encryption {encryption}, CEEM {ceem}, decryption {decryption}"
            ),
            CeemCase::PublicPage { sdk, ceem, decryption } => {
                write!(formatter, "SDK {}, CEEM {ceem}, decryption {decryption}", u8::from(sdk))
            }
            CeemCase::SupplementalKey { scope, ceem, decryption } => {
                write!(formatter, "scope {scope}, CEEM {ceem}, decryption {decryption}")
            }
            CeemCase::LabsPage { scope, sdk } => write!(formatter, "scope {scope}, SDK {}", u8::from(sdk)),
            CeemCase::HeldSet { kind, place, ceem } => {
                write!(formatter, "{}, place {place}, CEEM {ceem}", kind_name(kind))
            }
            CeemCase::StatusPage { encryption, ceems, decryption } => {
                write!(formatter, "encryption {encryption}, CEEMS {ceems}, decryption {decryption}")
            }
        }
    }
}
