//! What is wrong with a file that replay refuses with 22, in words; `recording::sound` finds it.

use crate::names::{name_of, CALLS};
use crate::recording::{broken, events_end, Broken, Event, Field, FileRule, Header, Part};
use crate::recording::{EVENT_BYTES, HEADER_BYTES};

/// The header's numbers, as request 3 names them.
const HEADER_NUMBERS: [&str; 4] =
    ["event count", "offset of the first event", "offset of the page bytes", "total length"];

/// The first fault of a file, with its header number (1 to 4) or its event (from 0) and field; nothing where the file
/// is sound.
pub fn unsound(file: &[u8]) -> Option<String> {
    let &Broken { rule, event } = broken(file).first()?;
    let length = file.len();
    let words = match (rule.part(), Header::read(file), event) {
        (Part::HeaderNumber(number), Some(header), _) => header_words(rule, number, &header, length),
        (Part::Field(field), Some(header), Some((position, event))) => {
            let page_bytes = length - events_end(usize::from(header.event_count));
            let call = name_of(&CALLS, event.kind).map_or(String::new(), |call| format!(" ({call})"));
            let what = field_words(rule, field, &event, page_bytes);
            format!("event {position}{call}, {}: {what}", field_name(field))
        }
        _ => format!("the file has {length} bytes, fewer than the {HEADER_BYTES} of its header"),
    };
    Some(words)
}

/// What is wrong with a header number.
fn header_words(rule: FileRule, number: usize, header: &Header, length: usize) -> String {
    let (name, value) = (HEADER_NUMBERS[number - 1], header.numbers()[number - 1]);
    let count = header.event_count;
    let end = events_end(usize::from(count));
    let what = match rule {
        FileRule::FirstEvent => format!("the first event is at byte {HEADER_BYTES}"),
        FileRule::PageBytesStart => format!("{count} events of {EVENT_BYTES} bytes end at byte {end}"),
        FileRule::EventsPastEnd => {
            format!("so many events end at byte {end}, and the file has {length} bytes")
        }
        _ => format!("the file has {length} bytes"),
    };
    format!("header number {number}, {name}: {value}, but {what}")
}

/// A field's name.
fn field_name(field: Field) -> &'static str {
    match field {
        Field::Kind => "kind",
        Field::Nexus => "nexus",
        Field::Argument => "argument",
        Field::PageOffset => "page offset",
        Field::PageLength => "page length",
        Field::Page => "page offset and length",
    }
}

/// A field's value, and what is wrong with it.
fn field_words(rule: FileRule, field: Field, event: &Event, page_bytes: usize) -> String {
    let &Event { kind, nexus, argument, page_offset: offset, page_length: length } = event;
    let value = match field {
        Field::Kind => u16::from(kind),
        Field::Nexus => u16::from(nexus),
        Field::Argument => argument,
        Field::PageOffset | Field::Page => offset,
        Field::PageLength => length,
    };
    match rule {
        FileRule::Kind => format!("{value}, but the kinds are 0 to {}", CALLS.len() - 1),
        FileRule::SupportFlag => format!("{value}, but the support flag is 0 or 1"),
        FileRule::PagePastEnd => {
            let end = usize::from(offset) + usize::from(length);
            format!("{offset} and {length}, but that is byte {end}, past the {page_bytes} page bytes")
        }
        _ => format!("{value}, but this call doesn't use it, so it is to be 0"),
    }
}
