//! Batches with a wrong event, and with more than one wrong thing: "18 comes first".

use super::wrong_events::{every, one_of_each, page_bytes};
use crate::comparison::batch_builder::{p7, BatchParts};
use crate::comparison::record_builder::{full, mixed};
use crate::comparison::session::{Sink, Stage};
use crate::record::Record;
use crate::recording::{Event, BATCH_EVENTS};
use crate::stream::LENT_LIMIT;

pub fn sessions(sink: &mut Sink) {
    every_wrong_event(sink);
    every_position(sink);
    several_wrong_events(sink);
    eighteen_first(sink);
    from_other_records(sink);
}

/// A sound batch over page K, of which each event shows.
fn sound() -> BatchParts {
    sound_of(6)
}

/// The same of so many events: its first ones, or all of them again and again.
fn sound_of(count: usize) -> BatchParts {
    let batch = BatchParts::of(&p7());
    assert_eq!(batch.page_bytes, page_bytes());
    BatchParts::new(batch.events.into_iter().cycle().take(count).collect(), batch.page_bytes)
}

/// A batch with an event more.
fn with(batch: &BatchParts, position: usize, event: Event) -> BatchParts {
    let mut batch = batch.clone();
    batch.events.insert(position, event);
    batch.with_just_room()
}

/// Every wrong event alone, before, among and after sound ones.
fn every_wrong_event(sink: &mut Sink) {
    let mut stage = Stage::new("a wrong event in a batch", mixed(), sink);
    for event in every() {
        stage.call(with(&sound_of(0), 0, event).command());
        for position in [0, 3, 6] {
            stage.call(with(&sound(), position, event).command());
        }
    }
    stage.finish();
}

/// A wrong event at every position of a batch of 64, and one of each rule at some.
fn every_position(sink: &mut Sink) {
    let mut stage = Stage::new("a wrong event at every position", full([0, 1, 2, 3]), sink);
    let batch = sound_of(BATCH_EVENTS - 1);
    for (at, (_, event)) in one_of_each().into_iter().enumerate() {
        for position in
            (0..BATCH_EVENTS).filter(|position| at == 0 || position % 7 == at % 7 || *position > 61)
        {
            stage.call(with(&batch, position, event).command());
        }
    }
    stage.finish();
}

/// Two wrong events, and events that are wrong by two fields.
fn several_wrong_events(sink: &mut Sink) {
    let mut stage = Stage::new("several wrong events", mixed(), sink);
    for (_, one) in one_of_each() {
        for (_, other) in one_of_each() {
            let batch = with(&with(&sound(), 6, other), 1, one);
            stage.call(batch.command());
            let both = Event { nexus: one.nexus | 3, argument: other.argument | 2, ..one };
            stage.call(with(&sound(), 2, both).command());
        }
        stage.call(with(&sound(), 0, one).with_left_over(3).command());
    }
    stage.finish();
}

/// A wrong event of each rule, or a part event, with too little room, with too many events, and with both.
fn eighteen_first(sink: &mut Sink) {
    let mut stage = Stage::new("18 where 22 is due too", mixed(), sink);
    for count in [0, 1, 5, 63, 64, 65] {
        let batch = sound_of(count);
        let wrong = one_of_each()
            .into_iter()
            .flat_map(|(_, event)| [0, count / 2, count].map(|position| with(&batch, position, event)));
        for batch in wrong.chain([batch.clone().with_left_over(1), batch.clone().with_left_over(7)]) {
            let just = batch.room;
            let mut rooms = vec![0, just / 2, just, just + 4, LENT_LIMIT];
            rooms.extend(just.checked_sub(1));
            for room in rooms {
                stage.call(batch.clone().with_room(room).command());
            }
        }
    }
    stage.finish();
}

/// The starting record makes no difference to what is refused.
fn from_other_records(sink: &mut Sink) {
    let mut damaged = mixed();
    damaged.places[1].index = 2;
    for record in [Record::power_on(), damaged] {
        let mut stage = Stage::new("wrong batches from other records", record, sink);
        for (_, event) in one_of_each() {
            for position in [0, 3, 6] {
                let batch = with(&sound(), position, event);
                stage.call(batch.command());
                stage.call(batch.clone().with_room(batch.room - 1).command());
            }
        }
        for bytes in [1, 4, 7] {
            stage.call(sound().with_left_over(bytes).command());
            stage.call(sound().with_left_over(bytes).with_room(0).command());
        }
        stage.call(sound().with_room(23).command());
        stage.call(sound().command());
        stage.finish();
    }
}
