//! 02, request 5: "Several events in one call".

use super::file::{whole_events, Recording};
use super::run::{answer_bytes, run_on, Verdict, ANSWER_BYTES};
use super::sound::{broken_by_events, FileRule};
use crate::stream::Drive;

/// 02, request 5: "One call takes up to 64 events".
pub const BATCH_EVENTS: usize = 64;

/// A rule of the request that a batch can break.
#[derive(Clone, Copy, PartialEq, Eq, PartialOrd, Ord, Debug)]
pub enum BatchRule {
    /// "more than 64 events"
    MoreThan64Events,
    /// "A buffer too short for all answers"
    BufferTooShort,
    /// "a part event left over"
    PartEvent,
    /// "a wrong field or page": request 3's rules of an event.
    OfEvent(FileRule),
}

impl BatchRule {
    /// Every rule, those of 18 first.
    pub fn every() -> Vec<BatchRule> {
        let own = [BatchRule::MoreThan64Events, BatchRule::BufferTooShort, BatchRule::PartEvent];
        own.into_iter().chain(FileRule::OF_EVENTS.map(BatchRule::OfEvent)).collect()
    }

    /// The verdict on a batch that breaks this rule alone.
    pub fn verdict(self) -> BatchVerdict {
        match self {
            BatchRule::MoreThan64Events | BatchRule::BufferTooShort => BatchVerdict::NoRoom,
            BatchRule::PartEvent | BatchRule::OfEvent(_) => BatchVerdict::WrongEvents,
        }
    }
}

/// A broken rule and, where an event breaks it, that event's position, counted from 0.
#[derive(Clone, Copy, PartialEq, Eq, Debug)]
pub struct BrokenByBatch {
    pub rule: BatchRule,
    pub position: Option<usize>,
}

/// What the call says of a batch as a whole, whatever its events are answered. In order: "18 comes first".
#[derive(Clone, Copy, PartialEq, Eq, PartialOrd, Ord, Debug)]
pub enum BatchVerdict {
    /// "A buffer too short for all answers, or more than 64 events, refuses with 18"
    NoRoom,
    /// "and a wrong field or page, or a part event left over, with 22"
    WrongEvents,
    Taken,
}

impl BatchVerdict {
    /// The verdict on a batch that breaks these rules.
    pub fn on(broken: &[BrokenByBatch]) -> BatchVerdict {
        broken.iter().map(|broken| broken.rule.verdict()).min().unwrap_or(BatchVerdict::Taken)
    }

    /// The verdict's number.
    pub fn number(self) -> u8 {
        match self {
            BatchVerdict::NoRoom => 18,
            BatchVerdict::WrongEvents => Verdict::WrongRecording.number(),
            BatchVerdict::Taken => Verdict::Taken.number(),
        }
    }
}

/// A batch: "events in request 3's form, with their page bytes", in which the events' page offsets count.
#[derive(Clone, Copy, PartialEq, Eq, Debug)]
pub struct Batch<'lent> {
    pub events: &'lent [u8],
    pub page_bytes: &'lent [u8],
}

/// What comes of a batch: the verdict, and the rules that were broken, none where it is taken.
#[derive(Clone, PartialEq, Eq, Debug)]
pub struct BatchOutcome {
    pub verdict: BatchVerdict,
    pub broken: Vec<BrokenByBatch>,
}

impl Batch<'_> {
    /// The rules that the batch breaks where so many bytes are lent for its answers.
    pub fn broken(&self, room: usize) -> Vec<BrokenByBatch> {
        let (events, left_over) = whole_events(self.events);
        // A part event is no event: it isn't one of 64, and no room is asked for it.
        let of_all = [
            (BatchRule::MoreThan64Events, events.len() > BATCH_EVENTS),
            (BatchRule::BufferTooShort, room < events.len() * ANSWER_BYTES),
            (BatchRule::PartEvent, !left_over.is_empty()),
        ];
        let of_all = of_all.into_iter().filter(|&(_, is_broken)| is_broken).map(|(rule, _)| (rule, None));
        let of_events = broken_by_events(&events, self.page_bytes.len()).into_iter().map(|broken| {
            let position = broken.event.map(|(position, _)| position);
            (BatchRule::OfEvent(broken.rule), position)
        });
        of_all.chain(of_events).map(|(rule, position)| BrokenByBatch { rule, position }).collect()
    }

    /// The whole events over the page bytes, as a recording has them.
    pub fn recording(&self) -> Recording {
        Recording { events: whole_events(self.events).0, page_bytes: self.page_bytes.to_vec() }
    }

    /// The call: the events one by one from "any starting record", which is the drive's, with "4 bytes of answer each,
    /// bytes beyond kept". A batch is refused "before any event runs", "and the buffer is untouched".
    pub fn call(&self, drive: &mut Drive, lent: &mut [u8]) -> BatchOutcome {
        let broken = self.broken(lent.len());
        let verdict = BatchVerdict::on(&broken);
        if verdict == BatchVerdict::Taken {
            let mut answers = lent.chunks_exact_mut(ANSWER_BYTES);
            run_on(drive, &self.recording(), |moment| {
                let answer = answers.next().expect("the buffer isn't too short for all answers");
                answer.copy_from_slice(&answer_bytes(moment.reply));
            });
        }
        BatchOutcome { verdict, broken }
    }
}
