//! Records with words that are wrong in two bits and more: exchanged, kept by a released nexus, zeros, ones, in another order
//! of bytes; many of them with 16 ones in all.

use super::every_kind;
use crate::comparison::record_builder::{full, mixed, without_all_nexus};
use crate::comparison::session::{load, Session, Sink};
use crate::comparison::word_cases::WrongWords;
use crate::record::Record;
use crate::sizes::{NEXUSES, PLACES};

pub fn sessions(sink: &mut Sink) {
    for record in [Record::power_on(), mixed(), without_all_nexus(), full([4, 3, 2, 1])] {
        for (turn, way) in WrongWords::every().into_iter().enumerate() {
            session(&record, way, turn, sink);
        }
    }
    for to in 1..PLACES {
        for nexus in 0..NEXUSES {
            session(&Record::power_on(), WrongWords::InAnotherWord { from: 0, to }, nexus, sink);
        }
    }
}

/// A call of every kind over a record whose words are made wrong so, if they can be.
fn session(record: &Record, way: WrongWords, turn: usize, sink: &mut Sink) {
    let Some(selection_words) = way.made(record, turn) else { return };
    let wrong = Record { selection_words, ..record.clone() };
    let commands = [vec![load(&wrong)], every_kind(turn)].concat();
    sink(Session { name: "records with wrong words".to_string(), commands });
}
