//! Random batches: of calls that fit one another and the record they meet, sound and damaged.

use super::RandomSessions;
use crate::codes::page_code;
use crate::comparison::batch_builder::BatchParts;
use crate::comparison::numbers::Numbers;
use crate::comparison::recordings::builder::recording_of;
use crate::comparison::recordings::random::{place_pages, recorded, small_or_any};
use crate::comparison::session;
use crate::recording::{Event, BATCH_EVENTS};
use crate::stream::{kind, Command, Drive, LENT_LIMIT};

impl RandomSessions {
    /// A batch over the record that the shadow drive has, which it still has afterwards.
    pub(super) fn batch(&mut self) -> Command {
        let record = self.shadow.controller().record.clone();
        let count = match self.numbers.below(10) {
            0 => 0,
            1..=6 => 1 + self.numbers.below(12),
            7 | 8 => 1 + self.numbers.below(BATCH_EVENTS),
            _ => self.numbers.pick(&[63, 64, 64, 65, 66]),
        };
        let mut recording = recording_of(&self.next_commands(count, recorded));
        self.shadow = Drive::with(record);
        place_pages(&mut recording, &mut self.numbers);
        let batch = BatchParts::new(recording.events, recording.page_bytes);
        let mut command = match self.numbers.below(100) {
            0..=59 => with_some_room(batch, &mut self.numbers).command(),
            _ => damaged(batch, &mut self.numbers),
        };
        if self.numbers.percent(10) {
            self.fill_unread_fields(&mut command);
        }
        command
    }
}

/// With room for all answers, and often for more.
fn with_some_room(batch: BatchParts, numbers: &mut Numbers) -> BatchParts {
    let just = batch.room;
    let more = numbers.pick(&[0, 0, 1, 3, 4, 50, LENT_LIMIT]);
    batch.with_room((just + more).min(LENT_LIMIT))
}

/// A batch with something wrong; what comes out may be sound.
fn damaged(batch: BatchParts, numbers: &mut Numbers) -> Command {
    let mut batch = with_some_room(batch, numbers);
    if numbers.percent(25) {
        batch.room = other_room(&batch, numbers);
    }
    match numbers.below(9) {
        0..=4 => in_event(&mut batch, numbers),
        5 => {
            let bytes = 1 + numbers.below(7);
            batch.left_over = numbers.bytes(bytes);
        }
        6 => {}
        7 => return with_other_length(&batch, numbers),
        _ => return with_other_data(&batch, numbers),
    }
    batch.command()
}

/// Changes a field of an event, or puts its page around the end of the page bytes.
fn in_event(batch: &mut BatchParts, numbers: &mut Numbers) {
    if batch.events.is_empty() {
        return;
    }
    let at = numbers.below(batch.events.len());
    let event = &mut batch.events[at];
    match numbers.below(6) {
        0 => event.kind = if numbers.percent(70) { numbers.below(14) as u8 } else { numbers.byte() },
        1 => event.nexus = small_or_any(numbers) as u8,
        2 => event.argument = small_or_any(numbers),
        3 => event.page_offset = small_or_any(numbers),
        4 => event.page_length = small_or_any(numbers),
        _ => {
            let end = (batch.page_bytes.len() as u16).saturating_add_signed(numbers.pick(&[-1, 0, 1, 1, 2]));
            let page_length = numbers.below(usize::from(end).min(60) + 1) as u16;
            *event = Event {
                kind: kind::OUT,
                nexus: event.nexus,
                argument: page_code::SET_DATA_ENCRYPTION,
                page_offset: end - page_length,
                page_length,
            };
        }
    }
}

/// Mostly a little too little room.
fn other_room(batch: &BatchParts, numbers: &mut Numbers) -> usize {
    let just = batch.clone().with_just_room().room;
    match numbers.below(4) {
        0 => just.saturating_sub(1),
        1 => just.saturating_sub(numbers.below(8)),
        2 => numbers.below(just + 1),
        _ => numbers.pick(&[0, LENT_LIMIT, LENT_LIMIT + 1, 0x8000, 0xFFFF]),
    }
}

/// Other bytes are said to be events: a few more or fewer, up to the end of the data, or past it.
fn with_other_length(batch: &BatchParts, numbers: &mut Numbers) -> Command {
    let events = batch.event_bytes();
    let (right, end) = (events.len() as u16, (events.len() + batch.page_bytes.len()) as u16);
    let length = match numbers.below(4) {
        0 => right.saturating_add_signed(numbers.pick(&[-8, -1, 1, 8])),
        1 => end.saturating_add_signed(numbers.pick(&[-1, 0, 1, 2])),
        2 => right - numbers.below(events.len() / 8 + 1) as u16 * 8,
        _ => small_or_any(numbers),
    };
    batch.command_of(&events, length)
}

/// Data cut, lengthened, or with bits turned.
fn with_other_data(batch: &BatchParts, numbers: &mut Numbers) -> Command {
    let Command { mut data, argument, .. } = batch.command();
    match numbers.below(4) {
        0 => data.truncate(numbers.below(4)),
        1 => data.truncate(numbers.below(data.len() + 1)),
        2 => data.extend(numbers.bytes(9)),
        _ => {
            let at = numbers.below(data.len().min(60));
            data[at] ^= 1 << numbers.below(8);
        }
    }
    session::batch(data, argument)
}
