//! 02, request 7: "Operators ask which hosts a set serves."

use crate::account::Rule;
use crate::answer::Refused;
use crate::controller::Controller;

impl Controller {
    /// The word of a place, behind checks 1 and 13. It names no nexus, so that nobody is registered and no unit attention
    /// is asked for or cleared.
    pub fn serves(&mut self, place: u16) -> Result<u64, Refused> {
        self.check_record()?;
        let place = self.check_place(place)?;
        let word = self.record.selection_words[place];
        self.account.note_place(if word == 0 { Rule::ServesNobody } else { Rule::ServesNexuses }, place);
        Ok(word)
    }
}
