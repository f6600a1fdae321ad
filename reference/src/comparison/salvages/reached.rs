//! What the recordings came to, counted: a run that never came to something on the list fails.

use super::shapes::{Shape, Tried};
use crate::comparison::recordings::case::{Case, Group};
use crate::comparison::recordings::counts::{Counts, Groups, Titled};
use crate::comparison::recordings::course::Reaches;
use crate::recording::{event_rules, fields_of, FileRule, Header};
use crate::salvage::{causes, Cause};
use crate::stream::kind;
use std::cmp::Ordering;

/// A number of a file or of what it comes to.
#[derive(Clone, Copy, PartialEq, Eq, PartialOrd, Ord, Debug)]
pub enum Number {
    /// The length of a file that is salvaged, or that isn't because of it.
    Length,
    LengthRefused,
    /// The stored page offset of a file that is salvaged, or that isn't because it is no multiple of 8, or 0.
    Offset,
    OffsetRefused,
    /// How far it lies past a file that isn't salvaged for that alone.
    PastFile,
    PageBytes,
    /// The whole events before the stored page offset, and what becomes of them.
    Whole,
    Kept,
    Dropped,
    NewTotal,
    /// The other header numbers as they are stored.
    StoredCount,
    StoredFirst,
    StoredTotal,
}

/// The numbers that are asked for: around the limits, and around those of a byte.
const NUMBERS: [(Number, &[usize]); 13] = [
    (Number::Length, &[8, 9, 15, 16, 17, 65_527, 65_528, 65_529, 65_534, 65_535]),
    (Number::LengthRefused, &[0, 1, 2, 3, 4, 5, 6, 7, 65_536, 65_537, 65_544, 131_072, 131_080]),
    (Number::Offset, &[8, 16, 24, 248, 256, 264, 0x7FF8, 0x8000, 0x8008, 65_520, 65_528]),
    (Number::OffsetRefused, &[0, 1, 2, 3, 4, 5, 6, 7, 9, 10, 11, 12, 13, 14, 15, 17, 65_527, 65_529, 65_535]),
    (Number::PastFile, &[1, 2, 3, 4, 5, 6, 7, 8, 65_520]),
    (Number::PageBytes, &[0, 1, 7, 8, 9, 255, 256, 257, 65_519, 65_527]),
    (Number::Whole, &[0, 1, 2, 255, 256, 257, 8_189, 8_190]),
    (Number::Kept, &[0, 1, 2, 255, 256, 257, 8_189, 8_190]),
    (Number::Dropped, &[0, 1, 2, 255, 256, 257, 8_189, 8_190]),
    (Number::NewTotal, &[8, 9, 16, 255, 256, 257, 65_527, 65_528, 65_534, 65_535]),
    (Number::StoredCount, &[0, 1, 255, 256, 8_190, 8_191, 8_192, 65_535]),
    (Number::StoredFirst, &[0, 7, 8, 9, 16, 65_535]),
    (Number::StoredTotal, &[0, 7, 8, 65_535]),
];

/// Something to come to.
#[derive(Clone, PartialEq, Eq, PartialOrd, Ord, Debug)]
pub enum Item {
    /// 21, by everything that is a cause of it.
    Refused(Vec<Cause>),
    /// Which of the four header numbers have another value in the new file.
    Changed([bool; 4]),
    /// One of them against its new value.
    Against(usize, Ordering),
    /// The stored event count against the whole events, the stored total against the length.
    CountAgainstWhole(Ordering),
    TotalAgainstLength(Ordering),
    /// The kind of the event that ended the run, and the only rule that it breaks.
    Ended(u8, FileRule),
    /// The same, by where it stands: alone, first, between, last.
    EndedAt(Shape, FileRule),
    /// The kinds of the last event that is kept and of the first one that isn't.
    LastKept(u8),
    FirstDropped(u8),
    Shape(Shape),
    Number(Number, usize),
}

/// The sets of causes that there can be: a file under 8 bytes has no offset, and no offset lies past a long file.
fn refusals() -> Vec<Item> {
    use Cause::{Above65535Bytes, OffsetBetweenEvents, OffsetPastFile, Under8Bytes};
    let alone = [Under8Bytes, Above65535Bytes, OffsetBetweenEvents, OffsetPastFile].map(|cause| vec![cause]);
    let together = [[Above65535Bytes, OffsetBetweenEvents], [OffsetBetweenEvents, OffsetPastFile]];
    alone.into_iter().chain(together.map(|causes| causes.to_vec())).map(Item::Refused).collect()
}

/// The rules of events that an event of a kind can break.
pub fn rules_of(kind: u8) -> Vec<FileRule> {
    let Some(fields) = fields_of(kind) else { return vec![FileRule::Kind] };
    let can_be = |rule: &FileRule| match rule {
        FileRule::SupportFlag => kind == kind::WRITE,
        FileRule::UnusedNexus => !fields.nexus,
        FileRule::UnusedArgument => !fields.argument,
        FileRule::UnusedPageOffset | FileRule::UnusedPageLength => !fields.page,
        FileRule::PagePastEnd => fields.page,
        _ => false,
    };
    FileRule::OF_EVENTS.into_iter().filter(can_be).collect()
}

/// Everything a run has to come to, by groups.
fn wanted() -> Vec<Titled<Item>> {
    use Ordering::{Equal, Greater, Less};
    let changed = (0..16).map(|set| Item::Changed([0, 1, 2, 3].map(|number| set >> number & 1 == 1)));
    let against = |number, orderings: &[Ordering]| {
        orderings.iter().map(|&ordering| Item::Against(number, ordering)).collect::<Vec<_>>()
    };
    let all = [Less, Equal, Greater];
    // a run never ends past the stored page offset
    let against =
        [against(0, &all), against(1, &all), against(2, &[Equal, Greater]), against(3, &all)].concat();
    let kinds = || kind::POWER_ON..=kind::READ;
    let ended =
        (0..=255).flat_map(|kind| rules_of(kind).into_iter().map(move |rule| Item::Ended(kind, rule)));
    let positions = [Shape::WrongAlone, Shape::WrongFirst, Shape::WrongBetween, Shape::WrongLast];
    let ended_at =
        positions.into_iter().flat_map(|at| FileRule::OF_EVENTS.map(|rule| Item::EndedAt(at, rule)));
    let numbers =
        NUMBERS.iter().flat_map(|&(number, values)| values.iter().map(move |&it| Item::Number(number, it)));
    vec![
        ("causes of 21", refusals()),
        ("header numbers changed, by which", changed.collect()),
        ("header numbers against the new ones", against),
        ("event count against the events", all.map(Item::CountAgainstWhole).to_vec()),
        ("total against the length", all.map(Item::TotalAgainstLength).to_vec()),
        ("the event that ended the run, by kind and rule", ended.collect()),
        ("the event that ended the run, by position and rule", ended_at.collect()),
        ("the last kept event by kind", kinds().map(Item::LastKept).collect()),
        ("the first dropped event by kind", (0..=255).map(Item::FirstDropped).collect()),
        ("shapes of files that are salvaged", Shape::EVERY.map(Item::Shape).to_vec()),
        ("numbers at the limits", numbers.collect()),
    ]
}

/// The groups of recordings that are asked for.
fn groups() -> Vec<(Group, usize)> {
    Group::EVERY.into_iter().chain(Group::OF_SALVAGES).collect()
}

/// The counts.
#[derive(Default)]
pub struct Reached {
    recordings: u64,
    refused: u64,
    unchanged: u64,
    groups: Groups,
    counts: Counts<Item>,
}

impl Reaches for Reached {
    type Case = Case;

    fn count(&mut self, case: &Case) {
        self.recordings += 1;
        self.groups.add(case);
        match Tried::read(&case.file) {
            Some(tried) => self.count_salvaged(&tried),
            None => self.count_refused(&case.file),
        }
    }

    fn recordings(&self) -> u64 {
        self.recordings
    }

    fn text(&self) -> String {
        let Reached { recordings, refused, unchanged, .. } = self;
        let salvaged = recordings - refused;
        let text =
            format!("recordings: {salvaged} salvaged, {unchanged} of them unchanged; {refused} refused\n");
        text + &self.groups.text(&groups()) + &self.counts.text(&wanted())
    }

    fn missing_text(&self, random: bool) -> String {
        self.groups.missing_text(&groups(), random) + &self.counts.missing_text(&wanted())
    }
}

impl Reached {
    /// Counts a file that can't be salvaged.
    fn count_refused(&mut self, file: &[u8]) {
        self.refused += 1;
        let causes = causes(file);
        let offset = Header::read(file).map_or(0, |header| usize::from(header.page_bytes));
        let number = match causes[..] {
            [Cause::Under8Bytes | Cause::Above65535Bytes] => Some((Number::LengthRefused, file.len())),
            [Cause::OffsetBetweenEvents] => Some((Number::OffsetRefused, offset)),
            [Cause::OffsetPastFile] => Some((Number::PastFile, offset - file.len())),
            _ => None,
        };
        self.counts.add_all(number.map(|(number, value)| Item::Number(number, value)));
        self.counts.add(Item::Refused(causes));
    }

    /// Counts a file that is salvaged.
    fn count_salvaged(&mut self, tried: &Tried) {
        let report = tried.salvaged.report;
        let (old, new) = (report.old.numbers(), report.new.numbers());
        self.unchanged += u64::from(old == new);
        self.counts.add(Item::Changed([0, 1, 2, 3].map(|number| old[number] != new[number])));
        self.counts.add_all([0, 1, 2, 3].map(|number| Item::Against(number, old[number].cmp(&new[number]))));
        let (count, total) = (usize::from(report.old.event_count), usize::from(report.old.total));
        self.counts.add(Item::CountAgainstWhole(count.cmp(&tried.damaged.events.len())));
        self.counts.add(Item::TotalAgainstLength(total.cmp(&tried.file.len())));
        let shapes = Shape::EVERY.into_iter().filter(|shape| shape.is_of(tried));
        self.counts.add_all(shapes.map(Item::Shape));
        self.count_numbers(tried);
        self.count_ends(tried);
    }

    /// Counts the numbers.
    fn count_numbers(&mut self, tried: &Tried) {
        let report = tried.salvaged.report;
        let stored = report.old.numbers().map(usize::from);
        let numbers = [
            (Number::Length, tried.file.len()),
            (Number::Offset, stored[2]),
            (Number::PageBytes, tried.damaged.page_bytes.len()),
            (Number::Whole, tried.damaged.events.len()),
            (Number::Kept, tried.kept().len()),
            (Number::Dropped, report.dropped),
            (Number::NewTotal, usize::from(report.new.total)),
            (Number::StoredCount, stored[0]),
            (Number::StoredFirst, stored[1]),
            (Number::StoredTotal, stored[3]),
        ];
        self.counts.add_all(numbers.map(|(number, value)| Item::Number(number, value)));
    }

    /// Counts the events where the run ends.
    fn count_ends(&mut self, tried: &Tried) {
        self.counts.add_all(tried.kept().last().map(|event| Item::LastKept(event.kind)));
        let Some(dropped) = tried.dropped().first() else { return };
        self.counts.add(Item::FirstDropped(dropped.kind));
        if let [rule] = event_rules(dropped, tried.damaged.page_bytes.len())[..] {
            self.counts.add(Item::Ended(dropped.kind, rule));
            let positions = [Shape::WrongAlone, Shape::WrongFirst, Shape::WrongBetween, Shape::WrongLast];
            let at = positions.into_iter().filter(|at| at.is_of(tried));
            self.counts.add_all(at.map(|at| Item::EndedAt(at, rule)));
        }
    }
}
