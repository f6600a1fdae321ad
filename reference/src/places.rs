//! 01, "Establishing, releasing, selecting": draw, release, establish.

use crate::account::Rule;
use crate::codes::scope;
use crate::controller::Controller;
use crate::record::{Kad, Set};
use crate::set_page::Parameters;
use crate::sizes::{KEY_BYTES, NEXUSES, SUPPLEMENTAL_KEYS};

impl Controller {
    /// 01: "Drawing a number: the drive's one running counter, 32 bits, steps by one and wraps from
    /// 4,294,967,295 to 0; the place changed takes the new value."
    pub(crate) fn draw(&mut self, place: usize) {
        self.record.counter = self.record.counter.wrapping_add(1);
        let number = self.record.counter;
        self.record.places[place].number = number;
        self.account.note_number(if number == 0 { Rule::DrawWraps } else { Rule::Draws }, place, number);
    }

    /// 01: "Releasing a used place empties it and draws once; nexuses that were LOCAL there, or ALL for
    /// place 0, become PUBLIC; their lock and saved numbers stay. Releasing an empty place does nothing".
    pub(crate) fn release(&mut self, place: usize) {
        if !self.record.places[place].is_used() {
            self.account.note_place(Rule::EmptyPlaceNotReleased, place);
            return;
        }
        self.account.note_place(Rule::Releases, place);
        for nexus in 0..NEXUSES {
            let was_local_there = place != 0 && self.record.local_place(nexus) == Some(place);
            let was_all = place == 0 && self.record.nexuses[nexus].scope == scope::ALL;
            if was_local_there || was_all {
                self.record.nexuses[nexus].scope = scope::PUBLIC;
                let rule = if was_all { Rule::AllNexusBecomesPublic } else { Rule::LocalNexusBecomesPublic };
                self.account.note_nexus(rule, nexus);
                if self.record.nexuses[nexus].lock {
                    self.account.note_nexus(Rule::LockStaysAtRelease, nexus);
                }
            }
        }
        self.record.places[place] = Set::empty(self.record.places[place].number);
        self.draw(place);
    }

    /// 01: "established, drawing once"; "A set sent without a key holds zeros there; supplemental keys start
    /// at none."
    pub(crate) fn establish(&mut self, place: usize, nexus: usize, parameters: &Parameters) {
        self.record.places[place] = Set {
            owner: nexus as u8,
            scope: parameters.scope,
            encryption: parameters.encryption,
            decryption: parameters.decryption,
            index: parameters.index,
            number: self.record.places[place].number,
            ceem: parameters.ceem,
            rdmd: parameters.rdmd,
            ckod: parameters.ckod,
            ckorp: parameters.ckorp,
            ckorl: parameters.ckorl,
            key: parameters.key.unwrap_or([0; KEY_BYTES]),
            supplemental_count: 0,
            supplemental_keys: [[0; KEY_BYTES]; SUPPLEMENTAL_KEYS],
            u_kad: parameters.u_kad,
            a_kad: parameters.a_kad,
        };
        let with_key = parameters.key.is_some();
        self.account
            .note_place(if with_key { Rule::EstablishesWithKey } else { Rule::EstablishesWithoutKey }, place);
        if parameters.u_kad != Kad::NONE {
            self.account.note_place(Rule::EstablishesWithUKad, place);
        }
        if parameters.a_kad != Kad::NONE {
            self.account.note_place(Rule::EstablishesWithAKad, place);
        }
        if parameters.rdmd {
            self.account.note_place(Rule::EstablishesWithRdmd, place);
        }
        self.draw(place);
    }
}
