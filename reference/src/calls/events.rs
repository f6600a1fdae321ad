//! 01, "Events, places in rising order: ...", and logical unit reset.

use crate::account::Rule;
use crate::answer::Refused;
use crate::codes::scope;
use crate::controller::Controller;
use crate::flags::Cause;
use crate::record::Set;
use crate::sizes::PLACES;

impl Controller {
    /// 01: "Logical unit reset clears registered marks and pending flags only."
    pub fn logical_unit_reset(&mut self) -> Result<(), Refused> {
        self.check_record()?;
        for (number, nexus) in self.record.nexuses.iter_mut().enumerate() {
            if nexus.registered {
                self.account.note_nexus(Rule::ResetClearsRegistered, number);
            }
            if nexus.changed_by_another_nexus || nexus.changed_by_vendor_event {
                self.account.note_nexus(Rule::ResetClearsPending, number);
            }
            nexus.registered = false;
            nexus.changed_by_another_nexus = false;
            nexus.changed_by_vendor_event = false;
        }
        Ok(())
    }

    /// 01: "demount releases CKOD sets".
    pub fn demount(&mut self) -> Result<(), Refused> {
        self.check_record()?;
        self.release_where(Cause::VendorEvent, |_, set| set.ckod);
        Ok(())
    }

    /// 01: "nexus reservation loss, LOCAL CKORL sets of that nexus".
    pub fn nexus_reservation_loss(&mut self, nexus: u8) -> Result<(), Refused> {
        self.check_record()?;
        let nexus = self.check_nexus(nexus)?;
        self.release_where(Cause::VendorEvent, |_, set| {
            set.ckorl && set.scope == scope::LOCAL && usize::from(set.owner) == nexus
        });
        Ok(())
    }

    /// 01: "device reservation loss, place 0 if CKORL".
    pub fn device_reservation_loss(&mut self) -> Result<(), Refused> {
        self.check_record()?;
        self.release_where(Cause::VendorEvent, |place, set| place == 0 && set.ckorl);
        Ok(())
    }

    /// 01: "preempt by a nexus, CKORP sets".
    pub fn preempt(&mut self, nexus: u8) -> Result<(), Refused> {
        self.check_record()?;
        let acting = self.check_nexus(nexus)?;
        self.release_where(Cause::AnotherNexus { acting }, |_, set| set.ckorp);
        Ok(())
    }

    /// 01: "microcode, all".
    pub fn microcode(&mut self) -> Result<(), Refused> {
        self.check_record()?;
        self.release_where(Cause::VendorEvent, |_, _| true);
        Ok(())
    }

    /// 01: "vendor release, the named place"; check 13: "place argument above 4".
    pub fn vendor_release(&mut self, named: u16) -> Result<(), Refused> {
        self.check_record()?;
        let named = self.check_place(named)?;
        self.release_where(Cause::VendorEvent, |place, _| place == named);
        Ok(())
    }

    /// Releases the chosen places in rising order, puts the words right, then gives the flags.
    fn release_where(&mut self, cause: Cause, chosen: impl Fn(usize, &Set) -> bool) {
        let before = self.record.clone();
        for place in 0..PLACES {
            if chosen(place, &self.record.places[place]) {
                self.release(place);
            }
        }
        self.keep_words();
        self.flag_changes(&before, cause);
    }
}
