//! Counts of events and rooms for their answers.

use super::days::day;
use crate::comparison::batch_builder::BatchParts;
use crate::comparison::record_builder::mixed;
use crate::comparison::session::{event, Sink, Stage};
use crate::recording::{ANSWER_BYTES, BATCH_EVENTS};
use crate::stream::{kind, LENT_LIMIT};

/// A byte less than so many answers take, just as many, and a byte more.
const AROUND: [isize; 3] = [-1, 0, 1];

pub fn sessions(sink: &mut Sink) {
    every_count(sink);
    other_rooms(sink);
    many_events(sink);
}

/// Every count up to 66 with room for all answers, a byte less and a byte more.
fn every_count(sink: &mut Sink) {
    let mut stage = Stage::new("batches by count and room", mixed(), sink);
    for count in 0..=BATCH_EVENTS + 2 {
        let batch = BatchParts::of(&day(count, count));
        for room in AROUND.into_iter().filter_map(|beyond| batch.room.checked_add_signed(beyond)) {
            stage.call(batch.clone().with_room(room).command());
        }
    }
    stage.finish();
}

/// Some counts with rooms far from what they take: none, the last answer's bytes in part, much more. A room that is
/// right but for a multiple of 256 is among them.
fn other_rooms(sink: &mut Sink) {
    let mut stage = Stage::new("batches with much and little room", mixed(), sink);
    for count in [1, 2, 3, 16, 32, 62, 63, 64, 65] {
        let batch = BatchParts::of(&day(3 * count, count));
        let just = batch.room;
        let mut rooms = vec![0, 1, 2, 3, count, just - 4, just - 3, just - 2, just / 2, just % 256];
        rooms.extend([just + 2, just + 3, just + 4, just + 100, just + 256, 255, 256, 257, 260]);
        rooms.extend([LENT_LIMIT - 1, LENT_LIMIT]);
        for room in rooms {
            stage.call(batch.clone().with_room(room).command());
        }
    }
    stage.finish();
}

/// More events than 64, up to the most that the data can have, with room for all of them, for 64, and for the count's
/// low part.
fn many_events(sink: &mut Sink) {
    let mut stage = Stage::new("batches of too many events", mixed(), sink);
    let demount = BatchParts::of(&[event(kind::DEMOUNT)]).events[0];
    let around_powers = [128, 256, 512, 1024, 4096].into_iter().flat_map(|power| power - 1..=power + 1);
    for count in (65..=72).chain([96, 100, 192, 319, 320, 321, 8191]).chain(around_powers) {
        let batch = BatchParts::new(vec![demount; count], Vec::new());
        for room in [batch.room, 4 * BATCH_EVENTS, count % 256 * ANSWER_BYTES, 0, LENT_LIMIT] {
            stage.call(batch.clone().with_room(room.min(LENT_LIMIT)).command());
        }
    }
    stage.finish();
}
