//! Part events: bytes after the last whole event that don't make one.

use super::days::day;
use crate::comparison::batch_builder::BatchParts;
use crate::comparison::record_builder::mixed;
use crate::comparison::session::{event, Sink, Stage};
use crate::recording::ANSWER_BYTES;
use crate::stream::{kind, LENT_LIMIT};

/// So many bytes a part event has.
const BYTES: std::ops::RangeInclusive<usize> = 1..=7;

pub fn sessions(sink: &mut Sink) {
    beside_whole_events(sink);
    going_on_in_page_bytes(sink);
    other_bytes(sink);
}

/// One to seven bytes beside none, a few, 63, 64 and 65 events, with rooms for the whole events, a byte less, for one
/// event more, and for all that can be.
fn beside_whole_events(sink: &mut Sink) {
    let mut stage = Stage::new("part events beside whole ones", mixed(), sink);
    for count in [0, 1, 2, 12, 31, 62, 63, 64, 65, 66] {
        let batch = BatchParts::of(&day(count + 5, count));
        for bytes in BYTES {
            let batch = batch.clone().with_left_over(bytes);
            let just = batch.room;
            for room in [just, just + 1, just + ANSWER_BYTES - 1, just + ANSWER_BYTES, LENT_LIMIT] {
                stage.call(batch.clone().with_room(room).command());
            }
            if let Some(room) = just.checked_sub(1) {
                stage.call(batch.with_room(room).command());
            }
        }
    }
    stage.finish();
}

/// Page bytes with which the part event would make a whole one, and page bytes that make events by themselves.
fn going_on_in_page_bytes(sink: &mut Sink) {
    let mut stage = Stage::new("part events that page bytes go on with", mixed(), sink);
    let demount = BatchParts::of(&[event(kind::DEMOUNT)]).event_bytes();
    for count in [0, 1, 63] {
        let whole = BatchParts::of(&day(count, count));
        for bytes in BYTES {
            let rest = demount[bytes..].to_vec();
            for page_bytes in [rest.clone(), [rest, demount.clone()].concat()] {
                let room = whole.room + ANSWER_BYTES;
                let batch = BatchParts { page_bytes, ..whole.clone() }.with_left_over(bytes).with_room(room);
                stage.call(batch.command());
            }
        }
        let batch = BatchParts { page_bytes: demount.repeat(3), room: LENT_LIMIT, ..whole };
        stage.call(batch.command());
    }
    stage.finish();
}

/// A part event of any bytes is wrong, zeros and FFh too, and after pages.
fn other_bytes(sink: &mut Sink) {
    let mut stage = Stage::new("part events of other bytes", mixed(), sink);
    for count in [0, 1, 20, 64] {
        let whole = BatchParts::of(&day(count, count));
        for bytes in BYTES {
            for byte in [0x00, 0x0C, 0xA5, 0xFF] {
                let batch = BatchParts { left_over: vec![byte; bytes], ..whole.clone() };
                stage.call(batch.command());
            }
        }
    }
    stage.finish();
}
