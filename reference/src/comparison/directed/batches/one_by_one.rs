//! The same calls as one batch, as two, and as commands: "it must equal the same events sent one by one, refused ones
//! included, in record and answers".

use super::days::{day, every_kind};
use crate::comparison::batch_builder::{p7, BatchParts};
use crate::comparison::record_builder::{full, mixed, without_all_nexus};
use crate::comparison::session::{load, power_on, Session, Sink};
use crate::record::Record;
use crate::recording::{answer_bytes, replay, Recording, Replayed, Verdict, BATCH_EVENTS};
use crate::stream::{Command, Drive, Reply, LENT_FILL};

/// Days of calls that are tried from each record.
const DAYS: usize = 12;
/// Bytes lent beyond the answers.
const BEYOND: usize = 5;

/// Some calls from a record.
struct OneByOne {
    record: Record,
    commands: Vec<Command>,
}

/// The records that calls start from, well formed or not.
fn records() -> Vec<Record> {
    let mut about_to_wrap = full([0, 1, 2, 3]);
    about_to_wrap.counter = u32::MAX - 3;
    let mut damaged = mixed();
    damaged.nexuses[5].scope = 3;
    let mut wrong_word = mixed();
    wrong_word.selection_words.swap(1, 2);
    let well_formed = [Record::power_on(), mixed(), full([4, 3, 2, 1]), about_to_wrap, without_all_nexus()];
    [&well_formed[..], &[damaged, wrong_word]].concat()
}

/// The calls that are tried from each record: days of up to 64 calls, with power-on in the middle of some.
fn calls() -> Vec<Vec<Command>> {
    let mut calls = vec![Vec::new(), p7(), every_kind()];
    for number in 0..DAYS {
        let mut day = day(number, BATCH_EVENTS - number);
        if number % 3 == 2 {
            day.insert(10 + number, power_on());
        }
        calls.push(day);
    }
    calls
}

/// Every case.
fn cases() -> Vec<OneByOne> {
    let from = |record: Record| {
        calls().into_iter().map(move |commands| OneByOne { record: record.clone(), commands })
    };
    records().into_iter().flat_map(from).collect()
}

impl OneByOne {
    /// The calls as one batch, with bytes beyond the answers.
    fn batch(&self) -> BatchParts {
        let batch = BatchParts::of(&self.commands);
        let room = batch.room + BEYOND;
        batch.with_room(room)
    }

    /// The calls as two batches over the same page bytes.
    fn halves(&self) -> [BatchParts; 2] {
        let BatchParts { mut events, page_bytes, .. } = self.batch();
        let end = events.split_off(events.len() / 2);
        [events, end].map(|events| BatchParts::new(events, page_bytes.clone()))
    }

    /// The record, the batch, the record again, the calls, the record again, and the two batches.
    fn session(&self) -> Session {
        let mut commands = vec![load(&self.record), self.batch().command(), load(&self.record)];
        commands.extend(self.commands.iter().cloned());
        commands.push(load(&self.record));
        commands.extend(self.halves().map(|half| half.command()));
        Session { name: "a batch and its calls one by one".to_string(), commands }
    }

    /// Whether the library's batch is the library's calls one by one, in answers, in the buffer beyond them and in the
    /// record; so are the two batches and, from power-on, the replay of the file made of it.
    fn is_equal(&self) -> bool {
        let drive = || Drive::with(self.record.clone());
        let (mut single, mut whole, mut halved) = (drive(), drive(), drive());
        let answers: Vec<u8> =
            self.commands.iter().flat_map(|command| answer_bytes(&single.answer(command))).collect();
        let record = &single.controller().record;
        let lent = [&answers[..], &[LENT_FILL; BEYOND]].concat();
        let taken = |reply: Reply| (reply.number == 0).then_some(reply.data);
        let one = taken(whole.answer(&self.batch().command()));
        let two: Option<Vec<Vec<u8>>> =
            self.halves().iter().map(|half| taken(halved.answer(&half.command()))).collect();
        let is_replay = self.record != Record::power_on() || self.is_replay(&answers, record);
        one == Some(lent)
            && two.map(|answers| answers.concat()) == Some(answers)
            && [&whole, &halved].iter().all(|drive| drive.controller().record == *record)
            && is_replay
    }

    /// Whether the replay of the file made of the batch has these answers and this record.
    fn is_replay(&self, answers: &[u8], record: &Record) -> bool {
        let BatchParts { events, page_bytes, .. } = self.batch();
        let replayed = replay(&Recording { events, page_bytes }.bytes());
        let (answers, record) = (answers.to_vec(), record.clone());
        replayed == Replayed { verdict: Verdict::Taken, answers, record }
    }
}

pub fn sessions(sink: &mut Sink) {
    for case in cases() {
        sink(case.session());
    }
}

/// The library against itself: a batch equals its calls one by one. Gives how many were tried.
pub fn self_check() -> Result<usize, String> {
    let cases = cases();
    match cases.iter().find(|case| !case.is_equal()) {
        None => Ok(cases.len()),
        Some(case) => Err(format!(
            "the REFERENCE DIFFERS FROM ITSELF: a batch of {} events isn't its calls one by one:\n{:?}\n",
            case.commands.len(),
            case.batch().command()
        )),
    }
}
