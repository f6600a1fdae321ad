//! 01: "After a page or event, each nexus that was registered before, isn't the acting one ..., and whose
//! selected place or its number differs from before, gets a flag". 02, request 7, gives them from the words, "with the same
//! flags as before"; here they come from 01's sentence, and `cargo test` holds them against the words.

use crate::account::Rule;
use crate::controller::Controller;
use crate::record::Record;
use crate::sizes::NEXUSES;

/// 01: ""another nexus" for pages and preempt, "vendor event" otherwise".
#[derive(Clone, Copy, PartialEq, Eq, Debug)]
pub(crate) enum Cause {
    /// The acting nexus is the page's sender or the preemptor.
    AnotherNexus {
        acting: usize,
    },
    VendorEvent,
}

impl Controller {
    /// Gives the flags after a change from the record `before`.
    pub(crate) fn flag_changes(&mut self, before: &Record, cause: Cause) {
        let changed = *before != self.record;
        for nexus in 0..NEXUSES {
            let place_before = before.selected_place(nexus);
            let place_after = self.record.selected_place(nexus);
            let place_differs = place_before != place_after;
            let number_differs = before.places[place_before].number != self.record.places[place_after].number;
            if !place_differs && !number_differs {
                if changed && before.nexuses[nexus].registered {
                    self.account.note_nexus(Rule::NoFlagForUnchangedSelection, nexus);
                }
                continue;
            }
            if !before.nexuses[nexus].registered {
                self.account.note_nexus(Rule::NoFlagWhenNotRegistered, nexus);
                continue;
            }
            match cause {
                Cause::AnotherNexus { acting } if acting == nexus => {
                    self.account.note_nexus(Rule::NoFlagForActingNexus, nexus);
                    continue;
                }
                Cause::AnotherNexus { .. } => {
                    self.record.nexuses[nexus].changed_by_another_nexus = true;
                    self.account.note_nexus(Rule::FlagsAnotherNexus, nexus);
                }
                Cause::VendorEvent => {
                    self.record.nexuses[nexus].changed_by_vendor_event = true;
                    self.account.note_nexus(Rule::FlagsVendorEvent, nexus);
                }
            }
            if !number_differs {
                self.account.note_nexus(Rule::FlagsForPlaceAlone, nexus);
            }
            if !place_differs {
                self.account.note_nexus(Rule::FlagsForNumberAlone, nexus);
            }
        }
    }
}
