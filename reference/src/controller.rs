//! The controller: the record its calls work on, and the account of the call at hand.

use crate::account::{Account, Rule};
use crate::answer::Refused;
use crate::codes::PROTOCOL;
use crate::record::Record;
use crate::sizes::{NEXUSES, PLACES};
use crate::well_formed::broken_clauses;

/// A device record under the calls of 01.
#[derive(Clone, Debug)]
pub struct Controller {
    pub record: Record,
    pub account: Account,
}

impl Controller {
    /// 01: "Power-on takes no record, answers 0 and gives all zeros", but for place 0's word (02, request 7).
    pub fn power_on() -> Self {
        Controller::with(Record::power_on())
    }

    /// A controller over a record, which need not be well formed.
    pub fn with(record: Record) -> Self {
        Controller { record, account: Account::default() }
    }

    /// Check 1: "record not well formed".
    pub(crate) fn check_record(&mut self) -> Result<(), Refused> {
        self.account.clauses = broken_clauses(&self.record);
        if self.account.clauses.is_empty() {
            Ok(())
        } else {
            Err(Refused::RecordNotWellFormed)
        }
    }

    /// Check 2: "nexus above 15".
    pub(crate) fn check_nexus(&mut self, nexus: u8) -> Result<usize, Refused> {
        let nexus = usize::from(nexus);
        if nexus >= NEXUSES {
            self.account.note(Rule::NexusAbove15);
            return Err(Refused::NexusAbove15);
        }
        Ok(nexus)
    }

    /// Checks 3 and 4: "pending", and "that flag cleared". They "apply to security commands and writes, and
    /// the command isn't carried out"; 02, request 1, for a read: "Checks 1 to 4 as for a write".
    pub(crate) fn check_pending(&mut self, nexus: usize) -> Result<(), Refused> {
        let pending = &mut self.record.nexuses[nexus];
        if pending.changed_by_another_nexus {
            pending.changed_by_another_nexus = false;
            self.account.note_nexus(Rule::PendingAnotherNexus, nexus);
            return Err(Refused::ChangedByAnotherNexus);
        }
        if pending.changed_by_vendor_event {
            pending.changed_by_vendor_event = false;
            self.account.note_nexus(Rule::PendingVendorEvent, nexus);
            return Err(Refused::ChangedByVendorEvent);
        }
        Ok(())
    }

    /// Check 5: "protocol not 20h"; then "A nexus is registered once check 5 has passed, whatever follows".
    pub(crate) fn check_protocol(&mut self, nexus: usize, protocol: u8) -> Result<(), Refused> {
        if protocol != PROTOCOL {
            self.account.note(Rule::ProtocolNot20);
            return Err(Refused::ProtocolNot20);
        }
        let already = self.record.nexuses[nexus].registered;
        self.record.nexuses[nexus].registered = true;
        self.account.note_nexus(if already { Rule::RegisteredAlready } else { Rule::Registers }, nexus);
        Ok(())
    }

    /// Check 13: "place argument above 4".
    pub(crate) fn check_place(&mut self, place: u16) -> Result<usize, Refused> {
        let place = usize::from(place);
        if place >= PLACES {
            self.account.note(Rule::PlaceAbove4);
            return Err(Refused::PlaceAbove4);
        }
        Ok(place)
    }
}
