//! Records with just one wrong bit, in each word each of the 64: every call answers 1 and leaves them as they are, but
//! power-on, which gives a good one.

use super::every_kind;
use crate::comparison::batch_builder::{p7, BatchParts};
use crate::comparison::record_builder::{full, mixed};
use crate::comparison::session::{load, power_on, serves, Session, Sink};
use crate::record::Record;
use crate::selection_words::bit;
use crate::sizes::PLACES;

pub fn sessions(sink: &mut Sink) {
    for record in [Record::power_on(), mixed(), full([4, 3, 2, 1])] {
        for place in 0..PLACES {
            for at in 0..u64::BITS as usize {
                let mut wrong = record.clone();
                wrong.selection_words[place] ^= bit(at);
                session(&wrong, place + 5 * at, sink);
            }
        }
    }
}

/// A call of every kind over the record; then, in some, a batch with power-on in the middle.
fn session(wrong: &Record, turn: usize, sink: &mut Sink) {
    let mut commands = [vec![load(wrong)], every_kind(turn)].concat();
    if matches!(turn % 3, 0) {
        let mended = BatchParts::of(&[&p7()[..2], &[power_on()], &p7()].concat());
        commands.extend([load(wrong), mended.command(), serves(1)]);
    }
    sink(Session { name: "records with one wrong bit".to_string(), commands });
}
