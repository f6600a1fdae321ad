//! What the recordings came to, counted: a run that never came to something on the list fails.

use super::builder::requests;
use super::case::{Case, Group};
use super::counts::{counts_text, missing_in, Groups};
use super::course::Reaches;
use crate::account::Rule;
use crate::comparison::reached::{Item, Reached as Calls};
use crate::record::Record;
use crate::recording::{broken_rules, run, Event, FileRule, Moment, Recording, LONGEST, MOST_EVENTS};
use crate::stream::kind;
use std::collections::BTreeMap;

/// So many draws that numbers fill more than a byte, as a recording has room for.
const MANY_DRAWS: u32 = 4096;

/// A shape of a sound recording.
#[derive(Clone, Copy, PartialEq, Eq, PartialOrd, Ord, Debug)]
pub enum Shape {
    RequestsFile,
    NoEvents,
    NoEventsButPageBytes,
    PageOfNoBytes,
    PageOfNoBytesAtTheEnd,
    PageToTheEnd,
    OverlappingPages,
    EqualPages,
    UnusedPageBytes,
    PowerOnInTheMiddle,
    MostEvents,
    MostBytes,
    ManyDraws,
}

impl Shape {
    const EVERY: [Shape; 13] = [
        Shape::RequestsFile,
        Shape::NoEvents,
        Shape::NoEventsButPageBytes,
        Shape::PageOfNoBytes,
        Shape::PageOfNoBytesAtTheEnd,
        Shape::PageToTheEnd,
        Shape::OverlappingPages,
        Shape::EqualPages,
        Shape::UnusedPageBytes,
        Shape::PowerOnInTheMiddle,
        Shape::MostEvents,
        Shape::MostBytes,
        Shape::ManyDraws,
    ];

    /// The shapes that a batch can have too.
    pub const OF_BATCHES: [Shape; 9] = [
        Shape::NoEvents,
        Shape::NoEventsButPageBytes,
        Shape::PageOfNoBytes,
        Shape::PageOfNoBytesAtTheEnd,
        Shape::PageToTheEnd,
        Shape::OverlappingPages,
        Shape::EqualPages,
        Shape::UnusedPageBytes,
        Shape::PowerOnInTheMiddle,
    ];

    /// Whether a recording with this record at the end has the shape.
    pub fn is_of(self, recording: &Recording, end_record: &Record) -> bool {
        let Recording { events, page_bytes } = recording;
        let pages = pages(events);
        let end = page_bytes.len();
        let overlaps = |(one, other): (&(usize, usize), &(usize, usize))| one != other && other.0 < one.1;
        match self {
            Shape::RequestsFile => *recording == requests(),
            Shape::NoEvents => events.is_empty() && end == 0,
            Shape::NoEventsButPageBytes => events.is_empty() && end > 0,
            Shape::PageOfNoBytes => pages.iter().any(|page| page.0 == page.1 && page.1 < end),
            Shape::PageOfNoBytesAtTheEnd => pages.contains(&(end, end)),
            Shape::PageToTheEnd => pages.iter().any(|page| page.0 < page.1 && page.1 == end),
            Shape::OverlappingPages => pages.iter().zip(pages.iter().skip(1)).any(overlaps),
            Shape::EqualPages => pages.iter().zip(pages.iter().skip(1)).any(|(one, other)| one == other),
            Shape::UnusedPageBytes => covered(&pages) < end,
            Shape::PowerOnInTheMiddle => events.iter().skip(1).any(|event| event.kind == kind::POWER_ON),
            Shape::MostEvents => events.len() == MOST_EVENTS,
            Shape::MostBytes => recording.bytes().len() == LONGEST,
            Shape::ManyDraws => end_record.counter >= MANY_DRAWS,
        }
    }
}

/// The start and the end of each page, in order.
fn pages(events: &[Event]) -> Vec<(usize, usize)> {
    let outs = events.iter().filter(|event| event.kind == kind::OUT);
    let start_and_end = |event: &Event| {
        let start = usize::from(event.page_offset);
        (start, start + usize::from(event.page_length))
    };
    let mut pages: Vec<_> = outs.map(start_and_end).collect();
    pages.sort();
    pages
}

/// How many page bytes some page covers.
fn covered(pages: &[(usize, usize)]) -> usize {
    let (mut covered, mut reached) = (0, 0);
    for &(start, end) in pages {
        covered += end.saturating_sub(start.max(reached));
        reached = reached.max(end);
    }
    covered
}

/// The counts.
#[derive(Default)]
pub struct Reached {
    recordings: u64,
    refused: u64,
    groups: Groups,
    broken: BTreeMap<FileRule, u64>,
    broken_alone: BTreeMap<FileRule, u64>,
    shapes: BTreeMap<Shape, u64>,
    calls: Calls,
}

impl Reaches for Reached {
    type Case = Case;

    fn count(&mut self, case: &Case) {
        self.count_showing(case, &mut |_| {});
    }

    fn recordings(&self) -> u64 {
        self.recordings
    }

    fn text(&self) -> String {
        self.text_of(&Group::EVERY)
    }

    fn missing_text(&self, random: bool) -> String {
        self.missing_text_of(&Group::EVERY, random)
    }
}

impl Reached {
    /// Counts a recording and, where it is sound, the calls of its replay, each of which is shown.
    pub fn count_showing(&mut self, case: &Case, show: &mut dyn FnMut(&Moment)) {
        self.recordings += 1;
        self.groups.add(case);
        match Recording::read(&case.file) {
            Some(recording) => self.count_sound(&recording, show),
            None => self.count_wrong(&broken_rules(&case.file)),
        }
    }

    /// Counts a sound recording's shapes and calls.
    fn count_sound(&mut self, recording: &Recording, show: &mut dyn FnMut(&Moment)) {
        let end_record = run(recording, |moment| {
            show(moment);
            self.calls.count(moment.command, moment.before, moment.reply, moment.drive.account());
        });
        for shape in Shape::EVERY.into_iter().filter(|shape| shape.is_of(recording, &end_record)) {
            *self.shapes.entry(shape).or_default() += 1;
        }
    }

    /// Counts the rules that a file breaks.
    fn count_wrong(&mut self, broken: &[FileRule]) {
        self.refused += 1;
        for &rule in broken {
            *self.broken.entry(rule).or_default() += 1;
        }
        if let [rule] = broken {
            *self.broken_alone.entry(*rule).or_default() += 1;
        }
    }

    /// The counts in words, those of some groups among them.
    pub fn text_of(&self, groups: &[(Group, usize)]) -> String {
        let mut text = format!("recordings: {} taken, ", self.recordings - self.refused);
        text += &format!("{} refused; {} calls replayed\n", self.refused, self.calls.calls);
        text += &self.groups.text(groups);
        text += &counts_text("rules of the file broken", &FileRule::EVERY, &self.broken);
        text += &counts_text("rules of the file broken alone", &FileRule::EVERY, &self.broken_alone);
        text += &counts_text("shapes of sound recordings", &Shape::EVERY, &self.shapes);
        text + &self.calls.text_of(calls_wanted())
    }

    /// What was never reached, in words, of some groups among other things.
    pub fn missing_text_of(&self, groups: &[(Group, usize)], random: bool) -> String {
        let mut text = self.groups.missing_text(groups, random);
        text += &missing_in("rules of the file broken", &FileRule::EVERY, &self.broken);
        text += &missing_in("rules of the file broken alone", &FileRule::EVERY, &self.broken_alone);
        text += &missing_in("shapes of sound recordings", &Shape::EVERY, &self.shapes);
        text + &self.calls.missing_text_of(calls_wanted().into_iter())
    }
}

/// What the calls of all replays have to come to: of what the drive's comparison asks for, all that can come after
/// power-on by the twelve kinds of event.
fn calls_wanted() -> Vec<Item> {
    Calls::wanted().into_iter().filter(can_be_replayed).collect()
}

/// Whether a replay can come to it. From power-on a record is always well formed (answer 1), the protocol is 20h (5),
/// a batch is no event (18, 22), nor is kind 13, the lent buffer has no bytes, 4,294,967,296 draws don't fit a recording, and
/// two places have the same number only after the wrap. The tables of values are the drive's comparison's task.
fn can_be_replayed(item: &Item) -> bool {
    let answers = |number: &u8| !matches!(number, 1 | 5 | 18 | 22 | 255);
    match item {
        Item::Answer(number) => answers(number),
        Item::KindAnswer(kind, number) => *kind <= kind::READ && answers(number),
        Item::RuleAtWork(rule) => !matches!(
            rule,
            Rule::ProtocolNot20
                | Rule::DrawWraps
                | Rule::FlagsForPlaceAlone
                | Rule::BufferOfPageLength
                | Rule::BufferLongerThanPage
                | Rule::ServesNexuses
                | Rule::ServesNobody
        ),
        Item::ClauseBroken(_) | Item::ClauseBrokenAlone(_) => false,
        Item::StatusRuleBroken(_) | Item::StatusRuleBrokenAlone(_) | Item::StatusPageLength(_) => false,
        Item::LentSize(_) | Item::SetPageByte(..) | Item::ReadCell(_) => false,
        Item::Ceem(_) | Item::Batch(_) | Item::Place(_) | Item::FaultyByte(_) | Item::Word(_) => false,
        _ => true,
    }
}
