//! Kind 13 with every value in each byte that it ignores: it is answered 0, 13 and 1 as it would be without them.

use crate::comparison::record_builder::mixed;
use crate::comparison::session::{load, serves, Session, Sink};
use crate::comparison::word_cases::IgnoredByte;
use crate::record::Record;
use crate::selection_words::bit;
use crate::sizes::PLACES;

pub fn sessions(sink: &mut Sink) {
    let mut wrong_word = mixed();
    wrong_word.selection_words[3] ^= bit(6);
    for byte in IgnoredByte::EVERY {
        session(&mixed(), byte, |value| u16::from(value) % PLACES as u16, sink);
        session(&mixed(), byte, |_| PLACES as u16, sink);
        session(&wrong_word, byte, |value| u16::from(value) % PLACES as u16, sink);
    }
}

/// Each value over a record, with the place by the value. Kind 13 changes nothing, so that the record is loaded once.
fn session(record: &Record, byte: IgnoredByte, place: impl Fn(u8) -> u16, sink: &mut Sink) {
    let mut commands = vec![load(record)];
    commands.extend((0..=255).map(|value| byte.with(value, serves(place(value)))));
    sink(Session { name: "every value of a byte that kind 13 ignores".to_string(), commands });
}
