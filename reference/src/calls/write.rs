//! 01, "The write decision".

use crate::account::Rule;
use crate::answer::Refused;
use crate::codes::encryption;
use crate::controller::Controller;

/// 01: "Otherwise the answer is clear, external or encrypted, by mode".
#[derive(Clone, Copy, PartialEq, Eq, Debug)]
pub enum WrittenAs {
    Clear,
    External,
    Encrypted,
}

/// 01: "with place and index".
#[derive(Clone, Copy, PartialEq, Eq, Debug)]
pub struct Written {
    pub as_what: WrittenAs,
    pub place: usize,
    pub index: u8,
}

impl Controller {
    /// 01: "Input: nexus, and whether the volume supports algorithm 1 here", behind checks 1 to 4.
    pub fn write(&mut self, nexus: u8, supported: bool) -> Result<Written, Refused> {
        self.check_record()?;
        let nexus = self.check_nexus(nexus)?;
        self.check_pending(nexus)?;
        let place = self.record.selected_place(nexus);
        let set = &self.record.places[place];
        let writer = &self.record.nexuses[nexus];
        // "Answer 11 if lock is 1 and the saved number differs from the selected set's."
        match (writer.lock, writer.saved_at_lock != set.number) {
            (true, true) => {
                self.account.note_number(Rule::WriteKeyInstanceChanged, place, set.number);
                return Err(Refused::KeyInstanceChanged);
            }
            (true, false) => self.account.note_nexus(Rule::WriteLockedAndUnchanged, nexus),
            (false, true) => self.account.note_nexus(Rule::WriteChangedButNotLocked, nexus),
            (false, false) => {}
        }
        // "Answer 12 if ENCRYPT and not supported."
        if !supported {
            if set.encryption == encryption::ENCRYPT {
                self.account.note_place(Rule::WriteNotSupported, place);
                return Err(Refused::ParametersNotUsable);
            }
            self.account.note_place(Rule::WriteNotSupportedButNotEncrypted, place);
        }
        let (as_what, rule) = match set.encryption {
            encryption::ENCRYPT => (WrittenAs::Encrypted, Rule::WritesEncrypted),
            encryption::EXTERNAL => (WrittenAs::External, Rule::WritesExternal),
            _ => (WrittenAs::Clear, Rule::WritesClear),
        };
        self.account.note_place(rule, place);
        Ok(Written { as_what, place, index: set.index })
    }
}
