//! What checks 3 and 4 and registering would find of a nexus.

use crate::record::{Nexus, Record};

/// What is pending for a nexus; where nothing is, whether it is registered.
#[derive(Clone, Copy, PartialEq, Eq, PartialOrd, Ord, Debug)]
pub enum Standing {
    NotRegistered,
    Registered,
    AnotherNexusPending,
    VendorEventPending,
    BothPending,
}

impl Standing {
    pub const EVERY: [Standing; 5] = [
        Standing::NotRegistered,
        Standing::Registered,
        Standing::AnotherNexusPending,
        Standing::VendorEventPending,
        Standing::BothPending,
    ];

    /// That of a nexus.
    pub fn of(nexus: &Nexus) -> Standing {
        match (nexus.changed_by_another_nexus, nexus.changed_by_vendor_event) {
            (true, true) => Standing::BothPending,
            (true, false) => Standing::AnotherNexusPending,
            (false, true) => Standing::VendorEventPending,
            _ if nexus.registered => Standing::Registered,
            _ => Standing::NotRegistered,
        }
    }

    /// A record all of whose nexuses have it.
    pub fn of_all(self, mut record: Record) -> Record {
        for nexus in &mut record.nexuses {
            nexus.registered = self != Standing::NotRegistered;
            nexus.changed_by_another_nexus =
                matches!(self, Standing::AnotherNexusPending | Standing::BothPending);
            nexus.changed_by_vendor_event =
                matches!(self, Standing::VendorEventPending | Standing::BothPending);
        }
        record
    }
}
