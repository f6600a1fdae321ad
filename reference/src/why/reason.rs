//! 02, request 8, "As settled": what a reason has "besides the number".

use crate::answer::Refused;
use crate::codes::scope;
use crate::record::{Nexus, Record, Set};

/// "What a call did to the set of a place that it acted on".
#[derive(Clone, Copy, PartialEq, Eq, PartialOrd, Ord, Debug)]
pub enum Deed {
    Established,
    Replaced,
    Evicted,
    Released,
}

impl Deed {
    /// "told by what the place held before and holds after it"
    pub fn of(before: &Set, after: &Set) -> Deed {
        match (before.is_used(), after.is_used()) {
            (_, false) => Deed::Released,
            (false, true) => Deed::Established,
            (true, true) if after.scope == scope::LOCAL && after.owner != before.owner => Deed::Evicted,
            (true, true) => Deed::Replaced,
        }
    }
}

/// "the position, kind and nexus of the call, the place, and what the call did to the set there"
#[derive(Clone, Copy, PartialEq, Eq, Debug)]
pub struct Touch {
    /// From 0, in the whole recording.
    pub position: usize,
    pub kind: u8,
    /// "A call's nexus is the event's second byte."
    pub nexus: u8,
    pub place: usize,
    pub deed: Deed,
}

/// "the place of the set in use, and its encryption mode"
#[derive(Clone, Copy, PartialEq, Eq, Debug)]
pub struct InUse {
    pub place: usize,
    pub encryption: u8,
}

impl InUse {
    /// Those of a nexus's set in a record.
    pub fn of(record: &Record, nexus: usize) -> InUse {
        InUse { place: record.selected_place(nexus), encryption: record.selected_set(nexus).encryption }
    }
}

/// A nexus's "two pending unit attention flags".
#[derive(Clone, Copy, PartialEq, Eq, PartialOrd, Ord, Debug)]
pub enum Flag {
    AnotherNexus,
    VendorEvent,
}

impl Flag {
    pub const EVERY: [Flag; 2] = [Flag::AnotherNexus, Flag::VendorEvent];

    /// Whether it is pending.
    pub fn is_pending(self, nexus: &Nexus) -> bool {
        match self {
            Flag::AnotherNexus => nexus.changed_by_another_nexus,
            Flag::VendorEvent => nexus.changed_by_vendor_event,
        }
    }
}

/// The reason for a write, by its answer. 1 never comes after power-on.
#[derive(Clone, Copy, PartialEq, Eq, Debug)]
pub enum Reason {
    /// 0: "0 is an answer too".
    Passes(InUse),
    /// 2
    NoSuchNexus,
    /// 3 and 4: what the call that raised the flag did to the set "that the nexus used when it came".
    Pending(Flag, Touch),
    /// 11
    Locked(Touch),
    /// 12
    NotSupported(InUse),
}

impl Reason {
    /// The answer's number.
    pub fn answer(&self) -> u8 {
        match self {
            Reason::Passes(_) => 0,
            Reason::NoSuchNexus => Refused::NexusAbove15.number(),
            Reason::Pending(Flag::AnotherNexus, _) => Refused::ChangedByAnotherNexus.number(),
            Reason::Pending(Flag::VendorEvent, _) => Refused::ChangedByVendorEvent.number(),
            Reason::Locked(_) => Refused::KeyInstanceChanged.number(),
            Reason::NotSupported(_) => Refused::ParametersNotUsable.number(),
        }
    }
}
