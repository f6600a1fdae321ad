//! 02, request 3: which files are refused whole with 22, by the rule that they break.

use super::file::{events_end, parts, Event, Header, HEADER_BYTES};
use crate::stream::kind;

/// Which fields a kind of event uses: "unused fields are zero".
#[derive(Clone, Copy, PartialEq, Eq, Debug)]
pub struct Fields {
    pub nexus: bool,
    pub argument: bool,
    /// Page offset and page length.
    pub page: bool,
}

/// The fields that a kind uses; nothing for a kind that the request doesn't name. "IN gives no page here", so that
/// only OUT has one. "The argument is the page code, the support flag 0 or 1, the place, or block kind times 256 plus
/// key": IN and OUT, write, vendor release, read.
pub fn fields_of(kind: u8) -> Option<Fields> {
    let (nexus, argument) = match kind {
        kind::POWER_ON | kind::LOGICAL_UNIT_RESET | kind::DEMOUNT => (false, false),
        kind::DEVICE_RESERVATION_LOSS | kind::MICROCODE => (false, false),
        kind::NEXUS_RESERVATION_LOSS | kind::PREEMPT => (true, false),
        kind::VENDOR_RELEASE => (false, true),
        kind::IN | kind::OUT | kind::WRITE | kind::READ => (true, true),
        _ => return None,
    };
    Some(Fields { nexus, argument, page: kind == kind::OUT })
}

/// A rule of the request that a file can break.
#[derive(Clone, Copy, PartialEq, Eq, PartialOrd, Ord, Debug)]
pub enum FileRule {
    /// "a file under 8 bytes"
    Under8Bytes,
    /// "a total differing from its length"
    Total,
    /// "offset of the first event (8)"
    FirstEvent,
    /// "The page bytes start just after the last event"
    PageBytesStart,
    /// An event count of more events than the file has bytes for.
    EventsPastEnd,
    /// "Kinds: 0 .. 11"
    Kind,
    /// "the support flag 0 or 1"
    SupportFlag,
    /// "unused fields are zero"
    UnusedNexus,
    UnusedArgument,
    UnusedPageOffset,
    UnusedPageLength,
    /// "a page with offset plus length past the page bytes"
    PagePastEnd,
}

impl FileRule {
    pub const EVERY: [FileRule; 12] = [
        FileRule::Under8Bytes,
        FileRule::Total,
        FileRule::FirstEvent,
        FileRule::PageBytesStart,
        FileRule::EventsPastEnd,
        FileRule::Kind,
        FileRule::SupportFlag,
        FileRule::UnusedNexus,
        FileRule::UnusedArgument,
        FileRule::UnusedPageOffset,
        FileRule::UnusedPageLength,
        FileRule::PagePastEnd,
    ];

    /// The rules of an event: "a wrong field" of one, or its page.
    pub const OF_EVENTS: [FileRule; 7] = [
        FileRule::Kind,
        FileRule::SupportFlag,
        FileRule::UnusedNexus,
        FileRule::UnusedArgument,
        FileRule::UnusedPageOffset,
        FileRule::UnusedPageLength,
        FileRule::PagePastEnd,
    ];

    /// What of a file the rule is about.
    pub fn part(self) -> Part {
        match self {
            FileRule::Under8Bytes => Part::Length,
            FileRule::EventsPastEnd => Part::HeaderNumber(1),
            FileRule::FirstEvent => Part::HeaderNumber(2),
            FileRule::PageBytesStart => Part::HeaderNumber(3),
            FileRule::Total => Part::HeaderNumber(4),
            FileRule::Kind => Part::Field(Field::Kind),
            FileRule::UnusedNexus => Part::Field(Field::Nexus),
            FileRule::SupportFlag | FileRule::UnusedArgument => Part::Field(Field::Argument),
            FileRule::UnusedPageOffset => Part::Field(Field::PageOffset),
            FileRule::UnusedPageLength => Part::Field(Field::PageLength),
            FileRule::PagePastEnd => Part::Field(Field::Page),
        }
    }
}

/// A part of a file.
#[derive(Clone, Copy, PartialEq, Eq, Debug)]
pub enum Part {
    /// The length of the file itself.
    Length,
    /// One of the header's four numbers, from 1.
    HeaderNumber(usize),
    /// A field of an event.
    Field(Field),
}

/// A field of an event.
#[derive(Clone, Copy, PartialEq, Eq, Debug)]
pub enum Field {
    Kind,
    Nexus,
    Argument,
    PageOffset,
    PageLength,
    /// Page offset and page length together.
    Page,
}

/// A broken rule and, where it is broken by an event, that event with its position, counted from 0.
#[derive(Clone, Copy, PartialEq, Eq, Debug)]
pub struct Broken {
    pub rule: FileRule,
    pub event: Option<(usize, Event)>,
}

/// The rules that a file breaks, each where it is broken: the header's before the events', and these in the events'
/// order; none for a file that replay takes.
pub fn broken(file: &[u8]) -> Vec<Broken> {
    let of_file = |rule| Broken { rule, event: None };
    let Some(header) = Header::read(file) else { return vec![of_file(FileRule::Under8Bytes)] };
    let mut broken: Vec<Broken> = header_rules(&header, file.len()).into_iter().map(of_file).collect();
    match parts(&header, file) {
        None => broken.push(of_file(FileRule::EventsPastEnd)),
        Some((events, page_bytes)) => broken.extend(broken_by_events(&events, page_bytes.len())),
    }
    broken
}

/// The rules that some events break over so many page bytes, each where it is broken, in the events' order.
pub fn broken_by_events(events: &[Event], page_bytes: usize) -> Vec<Broken> {
    let of_event = |(position, &event): (usize, &Event)| {
        let rules = event_rules(&event, page_bytes).into_iter();
        rules.map(move |rule| Broken { rule, event: Some((position, event)) })
    };
    events.iter().enumerate().flat_map(of_event).collect()
}

/// The rules that a file breaks, in order and each once.
pub fn broken_rules(file: &[u8]) -> Vec<FileRule> {
    let mut rules: Vec<FileRule> = broken(file).iter().map(|broken| broken.rule).collect();
    rules.sort();
    rules.dedup();
    rules
}

/// The rules of the header's numbers, for a file of so many bytes.
fn header_rules(header: &Header, length: usize) -> Vec<FileRule> {
    let mut broken = Vec::new();
    if usize::from(header.total) != length {
        broken.push(FileRule::Total);
    }
    if usize::from(header.first_event) != HEADER_BYTES {
        broken.push(FileRule::FirstEvent);
    }
    if usize::from(header.page_bytes) != events_end(usize::from(header.event_count)) {
        broken.push(FileRule::PageBytesStart);
    }
    broken
}

/// The rules that an event breaks, over so many page bytes. "Other numbers are left to the calls."
pub fn event_rules(event: &Event, page_bytes: usize) -> Vec<FileRule> {
    let Some(fields) = fields_of(event.kind) else { return vec![FileRule::Kind] };
    let mut broken = Vec::new();
    if event.kind == kind::WRITE && event.argument > 1 {
        broken.push(FileRule::SupportFlag);
    }
    let unused = [
        (fields.nexus, u16::from(event.nexus), FileRule::UnusedNexus),
        (fields.argument, event.argument, FileRule::UnusedArgument),
        (fields.page, event.page_offset, FileRule::UnusedPageOffset),
        (fields.page, event.page_length, FileRule::UnusedPageLength),
    ];
    broken.extend(unused.iter().filter(|(used, value, _)| !used && *value != 0).map(|&(_, _, rule)| rule));
    let page_end = usize::from(event.page_offset) + usize::from(event.page_length);
    if fields.page && page_end > page_bytes {
        broken.push(FileRule::PagePastEnd);
    }
    broken
}
