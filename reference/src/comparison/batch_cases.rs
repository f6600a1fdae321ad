//! What counts 02's request 5: the verdicts on batches by what causes them, the events that they run by what they are
//! answered and from which record, the shapes of their pages, and the limits of the stream.

use super::batch_builder::BatchParts;
use super::reached::KIND_ANSWERS;
use super::recordings::reached::Shape;
use super::report::kind_name;
use crate::account::Account;
use crate::record::Record;
use crate::recording::{fields_of, run_on, ANSWER_BYTES, BATCH_EVENTS};
use crate::recording::{Batch, BatchRule, BatchVerdict, BrokenByBatch, FileRule};
use crate::stream::{kind, Command, Drive, Reply, LENT_LIMIT, UNKNOWN_KIND};
use crate::well_formed::{is_well_formed, Clause};
use std::fmt;

/// Counts of events that are refused for themselves alone: with room for all their answers.
const COUNTS_ABOVE_64: [usize; 5] = [65, 66, 128, 256, 1024];
/// Counts of events beside which a part event is to stand.
const COUNTS_BESIDE_PART: [usize; 5] = [0, 1, 63, 64, 65];
/// Lengths of a batch's data, and sizes of its lent buffer, at the limits.
const DATA_LENGTHS: [usize; 3] = [0, 1, 2];
const LENT_SIZES: [usize; 4] = [0, LENT_LIMIT - 1, LENT_LIMIT, LENT_LIMIT + 1];

/// Where in a batch its one wrong event stands.
#[derive(Clone, Copy, PartialEq, Eq, PartialOrd, Ord, Debug)]
pub enum Position {
    Alone,
    First,
    Middle,
    Last,
}

impl Position {
    const EVERY: [Position; 4] = [Position::Alone, Position::First, Position::Middle, Position::Last];

    /// The position of one of so many events.
    fn of(position: usize, events: usize) -> Position {
        match (position, events) {
            (_, 1) => Position::Alone,
            (0, _) => Position::First,
            _ if position + 1 == events => Position::Last,
            _ => Position::Middle,
        }
    }
}

/// A kind of starting record.
#[derive(Clone, Copy, PartialEq, Eq, PartialOrd, Ord, Debug)]
pub enum Start {
    PowerOn,
    UsedPlaces,
    Pending,
    CounterAboutToWrap,
    NotWellFormed,
}

impl Start {
    const EVERY: [Start; 5] =
        [Start::PowerOn, Start::UsedPlaces, Start::Pending, Start::CounterAboutToWrap, Start::NotWellFormed];

    /// Whether a record is of the kind.
    fn is_of(self, record: &Record) -> bool {
        match self {
            Start::PowerOn => *record == Record::power_on(),
            Start::NotWellFormed => !is_well_formed(record),
            _ if !is_well_formed(record) => false,
            Start::UsedPlaces => record.places.iter().any(|set| set.is_used()),
            Start::Pending => record
                .nexuses
                .iter()
                .any(|nexus| nexus.changed_by_another_nexus || nexus.changed_by_vendor_event),
            Start::CounterAboutToWrap => record.counter == u32::MAX,
        }
    }
}

/// Where power-on stands among the events of a batch whose starting record isn't well formed.
#[derive(Clone, Copy, PartialEq, Eq, PartialOrd, Ord, Debug)]
pub enum Mended {
    Never,
    ByTheFirst,
    Between,
    ByTheLast,
}

impl Mended {
    const EVERY: [Mended; 4] = [Mended::Never, Mended::ByTheFirst, Mended::Between, Mended::ByTheLast];

    /// Where the first power-on stands among some kinds.
    fn of(kinds: &[u8]) -> Mended {
        match kinds.iter().position(|&kind| kind == kind::POWER_ON) {
            None => Mended::Never,
            Some(0) => Mended::ByTheFirst,
            Some(at) if at + 1 == kinds.len() => Mended::ByTheLast,
            Some(_) => Mended::Between,
        }
    }
}

/// Why a batch is an unknown command.
#[derive(Clone, Copy, PartialEq, Eq, PartialOrd, Ord, Debug)]
pub enum UnknownBy {
    DataUnder2Bytes,
    EventsPastData,
    BufferAboveLimit,
    BufferAndData,
}

impl UnknownBy {
    const EVERY: [UnknownBy; 4] = [
        UnknownBy::DataUnder2Bytes,
        UnknownBy::EventsPastData,
        UnknownBy::BufferAboveLimit,
        UnknownBy::BufferAndData,
    ];

    /// Why this batch is unknown, which it is.
    fn of(command: &Command) -> UnknownBy {
        let is_above = usize::from(command.argument) > LENT_LIMIT;
        match (is_above, command.batch(), command.data.len()) {
            (true, Some(_), _) => UnknownBy::BufferAboveLimit,
            (true, None, _) => UnknownBy::BufferAndData,
            (false, _, 0 | 1) => UnknownBy::DataUnder2Bytes,
            _ => UnknownBy::EventsPastData,
        }
    }
}

/// Something about batches to come to.
#[derive(Clone, Copy, PartialEq, Eq, PartialOrd, Ord, Debug)]
pub enum BatchCase {
    Broken(BatchRule),
    BrokenAlone(BatchRule),
    /// 18 by both of its causes at once.
    TooManyAndNoRoom,
    Unknown(UnknownBy),
    /// What an event of a batch is answered.
    Answer(u8),
    KindAnswer(u8, u8),
    /// A batch from a record that isn't well formed.
    Mended(Mended),
    Shape(Shape),
    /// 18 where 22 is due too: "18 comes first".
    NoRoomFirst {
        no_room: BatchRule,
        wrong: BatchRule,
    },
    /// A rule that one event alone breaks, by where it stands.
    WrongAt {
        rule: FileRule,
        position: Position,
    },
    /// So many bytes of a part event beside so many whole ones.
    PartEvent {
        events: usize,
        bytes: usize,
    },
    /// A batch of so many events: taken, or refused for their count alone.
    Count(usize),
    /// The room for so many events' answers, less a byte, as it is, and a byte more.
    Room {
        events: usize,
        beyond: i32,
    },
    /// An event that is run, by the batch's starting record.
    KindFrom {
        kind: u8,
        start: Start,
    },
    /// A clause for which an event of a batch is answered 1.
    ClauseBroken(Clause),
    DataLength(usize),
    LentSize(usize),
    /// Where the events end by E: a byte before the data's end, at it, and a byte past it.
    EventsEnd {
        beyond: i32,
    },
    /// What a batch is answered that has something in the fields that are ignored.
    IgnoredFields {
        number: u8,
    },
}

impl BatchCase {
    /// The group it is counted in.
    pub fn group(self) -> &'static str {
        match self {
            BatchCase::Broken(_) => "rules of a batch broken",
            BatchCase::BrokenAlone(_) => "rules of a batch broken alone",
            BatchCase::TooManyAndNoRoom => "batches with too many events and no room for them",
            BatchCase::Unknown(_) => "batches that are unknown commands",
            BatchCase::Answer(_) => "answers in batches",
            BatchCase::KindAnswer(..) => "kinds of event in batches with their answers",
            BatchCase::Mended(_) => "batches from records that aren't well formed, by power-on",
            BatchCase::Shape(_) => "shapes of batches",
            BatchCase::NoRoomFirst { .. } => "batches refused with 18 where 22 is due too",
            BatchCase::WrongAt { .. } => "rules broken by one event of a batch, by its position",
            BatchCase::PartEvent { .. } => "part events beside whole ones",
            BatchCase::Count(_) => "counts of events in a batch",
            BatchCase::Room { .. } => "rooms around 4 bytes each",
            BatchCase::KindFrom { .. } => "kinds of event in batches by starting record",
            BatchCase::ClauseBroken(_) => "clauses broken for an event of a batch",
            BatchCase::DataLength(_) => "lengths of a batch's data",
            BatchCase::LentSize(_) => "sizes of a batch's lent buffer",
            BatchCase::EventsEnd { .. } => "ends of the events around the end of the data",
            BatchCase::IgnoredFields { .. } => "batches with bytes in ignored fields",
        }
    }

    /// Whether it is one of all the values of something, which are the directed sessions' task.
    pub fn is_one_of_all_values(self) -> bool {
        !matches!(
            self,
            BatchCase::Broken(_)
                | BatchCase::BrokenAlone(_)
                | BatchCase::TooManyAndNoRoom
                | BatchCase::Unknown(_)
                | BatchCase::Answer(_)
                | BatchCase::KindAnswer(..)
                | BatchCase::Mended(_)
                | BatchCase::Shape(_)
        )
    }

    /// Every case.
    pub fn every() -> Vec<BatchCase> {
        let rules = BatchRule::every();
        let mut every: Vec<BatchCase> = rules.iter().map(|&rule| BatchCase::Broken(rule)).collect();
        every.extend(rules.iter().map(|&rule| BatchCase::BrokenAlone(rule)));
        every.push(BatchCase::TooManyAndNoRoom);
        every.extend(UnknownBy::EVERY.map(BatchCase::Unknown));
        for (kind, answers) in event_answers() {
            every.extend(answers.iter().map(|&number| BatchCase::Answer(number)));
            every.extend(answers.iter().map(|&number| BatchCase::KindAnswer(kind, number)));
            every.extend(Start::EVERY.map(|start| BatchCase::KindFrom { kind, start }));
        }
        every.extend(Mended::EVERY.map(BatchCase::Mended));
        every.extend(Shape::OF_BATCHES.map(BatchCase::Shape));
        let (no_room, wrong): (Vec<BatchRule>, Vec<BatchRule>) =
            rules.iter().partition(|rule| rule.verdict() == BatchVerdict::NoRoom);
        for no_room in no_room {
            every.extend(wrong.iter().map(|&wrong| BatchCase::NoRoomFirst { no_room, wrong }));
        }
        for rule in FileRule::OF_EVENTS {
            every.extend(Position::EVERY.map(|position| BatchCase::WrongAt { rule, position }));
        }
        for events in COUNTS_BESIDE_PART {
            every.extend((1..=7).map(|bytes| BatchCase::PartEvent { events, bytes }));
        }
        every.extend((0..=BATCH_EVENTS).chain(COUNTS_ABOVE_64).map(BatchCase::Count));
        for events in 0..=BATCH_EVENTS + 1 {
            let beyond = if events == 0 { 0..=1 } else { -1..=1 };
            every.extend(beyond.map(|beyond| BatchCase::Room { events, beyond }));
        }
        every.extend(Clause::EVERY.map(BatchCase::ClauseBroken));
        every.extend(DATA_LENGTHS.map(BatchCase::DataLength));
        every.extend(LENT_SIZES.map(BatchCase::LentSize));
        every.extend([-1, 0, 1].map(|beyond| BatchCase::EventsEnd { beyond }));
        every.extend([0, 18, 22, UNKNOWN_KIND].map(|number| BatchCase::IgnoredFields { number }));
        every.sort();
        every.dedup();
        every
    }

    /// The cases that a call comes to, over the record before it.
    pub fn of(command: &Command, before: &Record, reply: &Reply, account: &Account) -> Vec<BatchCase> {
        if command.kind != kind::BATCH {
            return Vec::new();
        }
        let mut cases = of_stream(command, reply);
        match command.batch() {
            Some(batch) if reply.number == 0 => cases.extend(of_taken(&batch, command, before)),
            Some(_) if reply.number != UNKNOWN_KIND => cases.extend(of_refused(command, account)),
            _ => cases.push(BatchCase::Unknown(UnknownBy::of(command))),
        }
        cases
    }
}

/// The answers each kind of event can give in a batch: those of its call but 5, since "IN and OUT events use protocol
/// 20h".
fn event_answers() -> Vec<(u8, Vec<u8>)> {
    let events = KIND_ANSWERS.into_iter().filter(|(kind, _)| fields_of(*kind).is_some());
    events
        .map(|(kind, answers)| (kind, answers.iter().copied().filter(|&number| number != 5).collect()))
        .collect()
}

/// The cases of the stream: data, lent buffer, ignored fields. Each limit is asked of a batch that keeps the others.
fn of_stream(command: &Command, reply: &Reply) -> Vec<BatchCase> {
    let size = usize::from(command.argument);
    let mut cases = Vec::new();
    if command.batch().is_some() {
        cases.push(BatchCase::LentSize(size));
    }
    if size <= LENT_LIMIT {
        cases.push(BatchCase::DataLength(command.data.len()));
        cases.extend(command.data.split_first_chunk().map(|(length, rest)| {
            let beyond = i32::from(u16::from_be_bytes(*length)) - rest.len() as i32;
            BatchCase::EventsEnd { beyond }
        }));
    }
    if command.nexus != 0 && command.protocol != 0 && command.port != 0 {
        cases.push(BatchCase::IgnoredFields { number: reply.number });
    }
    cases
}

/// The room against what the answers of so many events take.
fn of_room(events: usize, command: &Command) -> BatchCase {
    BatchCase::Room { events, beyond: i32::from(command.argument) - (events * ANSWER_BYTES) as i32 }
}

/// The cases of a batch that is refused.
fn of_refused(command: &Command, account: &Account) -> Vec<BatchCase> {
    let parts = BatchParts::read(command).unwrap_or_default();
    let (events, bytes) = (parts.events.len(), parts.left_over.len());
    let mut rules: Vec<BatchRule> = account.batch_rules.iter().map(|broken| broken.rule).collect();
    rules.sort();
    rules.dedup();
    let mut cases: Vec<BatchCase> = rules.iter().map(|&rule| BatchCase::Broken(rule)).collect();
    if rules.iter().all(|rule| rule.verdict() == BatchVerdict::NoRoom) {
        cases.push(of_room(events, command));
    }
    match rules[..] {
        [rule] => cases.push(BatchCase::BrokenAlone(rule)),
        [BatchRule::MoreThan64Events, BatchRule::BufferTooShort] => cases.push(BatchCase::TooManyAndNoRoom),
        [no_room, wrong] => cases.push(BatchCase::NoRoomFirst { no_room, wrong }),
        _ => {}
    }
    match rules[..] {
        [BatchRule::MoreThan64Events] => cases.push(BatchCase::Count(events)),
        [BatchRule::PartEvent] | [BatchRule::MoreThan64Events, BatchRule::PartEvent] => {
            cases.push(BatchCase::PartEvent { events, bytes });
        }
        _ => {}
    }
    if let [BrokenByBatch { rule: BatchRule::OfEvent(rule), position: Some(at) }] = account.batch_rules[..] {
        cases.push(BatchCase::WrongAt { rule, position: Position::of(at, events) });
    }
    cases
}

/// The cases of a batch that is taken: its events are run once more.
fn of_taken(batch: &Batch, command: &Command, before: &Record) -> Vec<BatchCase> {
    let recording = batch.recording();
    let kinds: Vec<u8> = recording.events.iter().map(|event| event.kind).collect();
    let mut cases = vec![BatchCase::Count(kinds.len()), of_room(kinds.len(), command)];
    let starts = Start::EVERY.into_iter().filter(|start| start.is_of(before));
    for start in starts {
        cases.extend(kinds.iter().map(|&kind| BatchCase::KindFrom { kind, start }));
    }
    if !kinds.is_empty() && !is_well_formed(before) {
        cases.push(BatchCase::Mended(Mended::of(&kinds)));
    }
    let mut drive = Drive::with(before.clone());
    run_on(&mut drive, &recording, |moment| {
        let number = moment.reply.number;
        cases.extend([BatchCase::Answer(number), BatchCase::KindAnswer(moment.event.kind, number)]);
        cases.extend(moment.drive.account().clauses.iter().map(|&clause| BatchCase::ClauseBroken(clause)));
    });
    let end_record = &drive.controller().record;
    let shapes = Shape::OF_BATCHES.into_iter().filter(|shape| shape.is_of(&recording, end_record));
    cases.extend(shapes.map(BatchCase::Shape));
    cases
}

impl fmt::Display for BatchCase {
    fn fmt(&self, formatter: &mut fmt::Formatter) -> fmt::Result {
        match self {
            BatchCase::Broken(rule) | BatchCase::BrokenAlone(rule) => rule_text(*rule, formatter),
            BatchCase::TooManyAndNoRoom => formatter.write_str("18"),
            BatchCase::Unknown(by) => write!(formatter, "{by:?}"),
            BatchCase::Answer(number) | BatchCase::IgnoredFields { number } => write!(formatter, "{number}"),
            BatchCase::KindAnswer(kind, number) => write!(formatter, "{} {number}", kind_name(*kind)),
            BatchCase::Mended(mended) => write!(formatter, "{mended:?}"),
            BatchCase::Shape(shape) => write!(formatter, "{shape:?}"),
            BatchCase::NoRoomFirst { no_room, wrong } => {
                rule_text(*no_room, formatter)?;
                formatter.write_str(" over ")?;
                rule_text(*wrong, formatter)
            }
            BatchCase::WrongAt { rule, position } => write!(formatter, "{rule:?} {position:?}"),
            BatchCase::PartEvent { events, bytes } => {
                write!(formatter, "{bytes} bytes after {events} events")
            }
            BatchCase::Count(number) | BatchCase::DataLength(number) | BatchCase::LentSize(number) => {
                write!(formatter, "{number}")
            }
            BatchCase::Room { events, beyond } => write!(formatter, "{events} events, {beyond:+}"),
            BatchCase::KindFrom { kind, start } => write!(formatter, "{} from {start:?}", kind_name(*kind)),
            BatchCase::ClauseBroken(clause) => write!(formatter, "{clause:?}"),
            BatchCase::EventsEnd { beyond } => write!(formatter, "{beyond:+}"),
        }
    }
}

/// A rule of a batch by its name.
fn rule_text(rule: BatchRule, formatter: &mut fmt::Formatter) -> fmt::Result {
    match rule {
        BatchRule::OfEvent(rule) => write!(formatter, "{rule:?}"),
        rule => write!(formatter, "{rule:?}"),
    }
}
