//! 02, request 7: "Keep beside each place one word whose bit n says that nexus n selects this place."

use crate::account::Rule;
use crate::controller::Controller;
use crate::record::Record;
use crate::sizes::{NEXUSES, PLACES};

/// 02, request 7: "at power-on 16 ones for place 0, zeros elsewhere".
pub const AT_POWER_ON: [u64; PLACES] = [0xFFFF, 0, 0, 0, 0];

impl Record {
    /// What the scopes say of a place: "bit n says that nexus n selects this place", and no other bit is set.
    pub fn word_by_scopes(&self, place: usize) -> u64 {
        let selecting = (0..NEXUSES).filter(|&nexus| self.selected_place(nexus) == place);
        selecting.fold(0, |word, nexus| word | bit(nexus))
    }

    /// What the scopes say of each place. The words of a well-formed record are these.
    pub fn words_by_scopes(&self) -> [u64; PLACES] {
        std::array::from_fn(|place| self.word_by_scopes(place))
    }

    /// The words become those that the scopes say.
    pub fn put_words_right(&mut self) {
        self.selection_words = self.words_by_scopes();
    }
}

impl Controller {
    /// 02, request 7: "After every call each word equals what the scopes say".
    pub(crate) fn keep_words(&mut self) {
        let words = self.record.words_by_scopes();
        for (place, word) in words.into_iter().enumerate() {
            let rule = if place == 0 { Rule::BitMovesToPlaceZero } else { Rule::BitMovesToLocalPlace };
            for nexus in nexuses_of(word & !self.record.selection_words[place]) {
                self.account.note_nexus_at(rule, nexus, place);
            }
        }
        self.record.selection_words = words;
    }
}

/// The bit of a nexus.
pub fn bit(nexus: usize) -> u64 {
    1 << nexus
}

/// The nexuses whose bits are set in a word, those above 15 too.
pub fn nexuses_of(word: u64) -> Vec<usize> {
    (0..u64::BITS as usize).filter(|&nexus| word & bit(nexus) != 0).collect()
}

/// Which nexuses a word names: `nobody`, `nexus 4`, `nexuses 0, 1, 5 to 15`.
pub fn in_words(word: u64) -> String {
    let nexuses = nexuses_of(word);
    let runs: Vec<String> = nexuses.chunk_by(|one, next| one + 1 == *next).map(run_in_words).collect();
    match nexuses.len() {
        0 => "nobody".to_string(),
        1 => format!("nexus {}", runs[0]),
        _ => format!("nexuses {}", runs.join(", ")),
    }
}

/// Nexuses one after another; three and more are told by the first and the last.
fn run_in_words(run: &[usize]) -> String {
    match run {
        [first, _, .., last] => format!("{first} to {last}"),
        _ => run.iter().map(usize::to_string).collect::<Vec<_>>().join(", "),
    }
}
