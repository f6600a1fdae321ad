//! Kind 13 in the name of each nexus, by its mark and by what is pending for it. It names no nexus: whatever the byte says,
//! nobody is registered and no flag is told or cleared, where it is done and where it is refused.

use crate::comparison::record_builder::mixed;
use crate::comparison::session::{load, serves, Session, Sink};
use crate::comparison::word_cases::Standing;
use crate::record::Record;
use crate::selection_words::bit;
use crate::sizes::{NEXUSES, PLACES};
use crate::stream::Command;

pub fn sessions(sink: &mut Sink) {
    for standing in Standing::EVERY {
        let record = standing.of_all(mixed());
        let mut wrong_word = record.clone();
        wrong_word.selection_words[0] ^= bit(11);
        session(&record, sink);
        session(&wrong_word, sink);
    }
}

/// Each nexus asks about each place, and about one above 4.
fn session(record: &Record, sink: &mut Sink) {
    let mut commands = vec![load(record)];
    for nexus in 0..NEXUSES as u8 {
        commands.extend((0..=PLACES as u16).map(|place| Command { nexus, ..serves(place) }));
    }
    sink(Session { name: "kind 13 in the name of each nexus".to_string(), commands });
}
