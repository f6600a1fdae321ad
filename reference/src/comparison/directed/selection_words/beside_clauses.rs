//! Records that break each clause of the sets and the nexuses, with words that are right, wrong and any.

use super::every_kind;
use crate::comparison::directed::read_checks::not_well_formed_but_for_words;
use crate::comparison::record_builder::mixed;
use crate::comparison::session::{load, Session, Sink};
use crate::record::Record;
use crate::selection_words::{bit, AT_POWER_ON};
use crate::sizes::PLACES;

pub fn sessions(sink: &mut Sink) {
    for (turn, record) in not_well_formed_but_for_words().into_iter().enumerate() {
        let mut one_bit = record.selection_words;
        one_bit[turn % PLACES] ^= bit(3 * turn % 64);
        let before = mixed().selection_words;
        let any = [1, 2, 3, 4, 5].map(|place: u64| place.wrapping_mul(0x9E37_79B9_7F4A_7C15) ^ turn as u64);
        for selection_words in [record.selection_words, one_bit, before, any, [0; PLACES], AT_POWER_ON] {
            let wrong = Record { selection_words, ..record.clone() };
            let commands = [vec![load(&wrong)], every_kind(turn)].concat();
            sink(Session { name: "broken clauses beside words".to_string(), commands });
        }
    }
}
