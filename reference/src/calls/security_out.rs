//! OUT: a Set Data Encryption page from a nexus.

use crate::account::Rule;
use crate::answer::Refused;
use crate::codes::{page_code, scope};
use crate::controller::Controller;
use crate::flags::Cause;
use crate::set_page::{self, Parameters, Request, Sender, SupplementalKey};
use crate::sizes::{NEXUSES, PLACES, SUPPLEMENTAL_KEYS};

/// 01, LOCAL: the place for the set, and whether its present owner's set is released first.
struct Choice {
    place: usize,
    release_first: bool,
}

impl Controller {
    /// 01, "The Set Data Encryption page" and "Establishing, releasing, selecting", behind checks 1 to 6.
    pub fn security_out(
        &mut self,
        nexus: u8,
        protocol: u8,
        page_code: u16,
        page: &[u8],
    ) -> Result<(), Refused> {
        self.check_record()?;
        let nexus = self.check_nexus(nexus)?;
        self.check_pending(nexus)?;
        let before = self.record.clone();
        self.check_protocol(nexus, protocol)?;
        if page_code != page_code::SET_DATA_ENCRYPTION {
            self.account.note(Rule::PageNotSupported);
            return Err(Refused::PageNotSupported);
        }
        let sender = Sender { scope: self.record.nexuses[nexus].scope, set: self.record.selected_set(nexus) };
        match set_page::check(page, sender) {
            Err(fault) => {
                self.account.page_rules = fault.broken;
                return Err(fault.answer);
            }
            Ok(Request::SupplementalKey(supplemental)) => self.append(nexus, &supplemental)?,
            Ok(Request::Public { lock }) => {
                self.accept_public(nexus);
                self.take_scope_and_lock(nexus, scope::PUBLIC, lock);
            }
            Ok(Request::Parameters(parameters)) => {
                if parameters.scope == scope::ALL {
                    self.accept_all(nexus, &parameters);
                } else {
                    self.accept_local(nexus, &parameters)?;
                }
                self.take_scope_and_lock(nexus, parameters.scope, parameters.lock);
            }
        }
        self.keep_words();
        self.flag_changes(&before, Cause::AnotherNexus { acting: nexus });
        Ok(())
    }

    /// 01, SDK 1: "Then answer 9 if the set has 4 already, else the key is appended. Instance numbers and
    /// locks stay."
    fn append(&mut self, nexus: usize, supplemental: &SupplementalKey) -> Result<(), Refused> {
        let place = self.record.selected_place(nexus);
        let set = &mut self.record.places[place];
        let count = usize::from(set.supplemental_count);
        if count >= SUPPLEMENTAL_KEYS {
            self.account.note_place(Rule::FifthSupplementalKey, place);
            return Err(Refused::FifthSupplementalKey);
        }
        set.supplemental_keys[count] = supplemental.key;
        set.supplemental_count += 1;
        self.account.note_place(Rule::AppendsSupplementalKey, place);
        Ok(())
    }

    /// 01: "PUBLIC: the nexus's own LOCAL place, if any, is released."
    fn accept_public(&mut self, nexus: usize) {
        if self.record.nexuses[nexus].scope == scope::ALL {
            self.account.note_nexus(Rule::PublicFromAllLeavesPlaceZero, nexus);
        }
        match self.record.local_place(nexus) {
            Some(place) => {
                self.account.note_place(Rule::PublicReleasesOwnPlace, place);
                self.release(place);
            }
            None => self.account.note_nexus(Rule::PublicWithoutOwnPlace, nexus),
        }
    }

    /// 01: "ALL: its LOCAL place, if any, is released first; place 0 is established, drawing once; any other
    /// ALL nexus becomes PUBLIC."
    fn accept_all(&mut self, nexus: usize, parameters: &Parameters) {
        match self.record.local_place(nexus) {
            Some(place) => {
                self.account.note_place(Rule::AllReleasesOwnPlace, place);
                self.release(place);
            }
            None => self.account.note_nexus(Rule::AllWithoutOwnPlace, nexus),
        }
        self.account.note_nexus(Rule::AllEstablishesPlaceZero, nexus);
        self.establish(0, nexus, parameters);
        for other in (0..NEXUSES).filter(|&other| other != nexus) {
            if self.record.nexuses[other].scope == scope::ALL {
                self.record.nexuses[other].scope = scope::PUBLIC;
                self.account.note_nexus(Rule::OtherAllNexusBecomesPublic, other);
            }
        }
    }

    /// 01, LOCAL: "... Then established, drawing once. A former ALL owner's set stays in place 0."
    fn accept_local(&mut self, nexus: usize, parameters: &Parameters) -> Result<(), Refused> {
        let Some(choice) = self.choose(nexus) else {
            self.account.note_nexus(Rule::LocalFindsNoPlace, nexus);
            return Err(Refused::NoPlaceForLocalSet);
        };
        if self.record.nexuses[nexus].scope == scope::ALL {
            self.account.note_nexus(Rule::LocalFromAllLeavesPlaceZero, nexus);
        }
        if choice.release_first {
            self.release(choice.place);
        }
        self.establish(choice.place, nexus, parameters);
        Ok(())
    }

    /// 01, LOCAL: "its present place, else the lowest empty one, else the lowest whose owner has lock 0, which
    /// is first released; else answer 10".
    fn choose(&mut self, nexus: usize) -> Option<Choice> {
        if let Some(place) = self.record.local_place(nexus) {
            self.account.note_place(Rule::LocalTakesPresentPlace, place);
            return Some(Choice { place, release_first: false });
        }
        if let Some(place) = (1..PLACES).find(|&place| !self.record.places[place].is_used()) {
            self.account.note_place(Rule::LocalTakesLowestEmptyPlace, place);
            return Some(Choice { place, release_first: false });
        }
        let owner_has_no_lock =
            |&place: &usize| !self.record.nexuses[usize::from(self.record.places[place].owner)].lock;
        let place = (1..PLACES).find(owner_has_no_lock)?;
        self.account.note_place(Rule::LocalTakesPlaceOfUnlockedOwner, place);
        Some(Choice { place, release_first: true })
    }

    /// 01: "The nexus's scope is SCOPE, lock is LOCK; with LOCK 1 it saves its selected set's number
    /// afterwards, with LOCK 0 the saved number stays. LOCAL saves its last-LOCAL number."
    fn take_scope_and_lock(&mut self, nexus: usize, scope: u8, lock: bool) {
        self.record.nexuses[nexus].scope = scope;
        self.record.nexuses[nexus].lock = lock;
        let place = self.record.selected_place(nexus);
        let number = self.record.places[place].number;
        if lock {
            self.record.nexuses[nexus].saved_at_lock = number;
            self.account.note_number(Rule::LockSavesNumber, place, number);
        } else {
            self.account.note_nexus(Rule::NoLockKeepsSavedNumber, nexus);
        }
        if scope == scope::LOCAL {
            self.record.nexuses[nexus].last_local = number;
            self.account.note_number(Rule::LocalSavesLastLocalNumber, place, number);
        }
    }
}
