//! What is printed about a difference: the short recording in hex and in words, and both results.

use super::case::Case;
use super::outcome::{Outcome, Wanted};
use super::replayer::{Difference, Way};
use super::shrink::Short;
use crate::answer_words::when;
use crate::comparison::report::{differing_fields_text, rows};
use crate::names::{name_of, CALLS};
use crate::record_bytes::RECORD_BYTES;
use crate::recording::{broken_rules, fields_of, parts, replay, Event, Header, ANSWER_BYTES};
use crate::stream::kind;
use std::fmt::Write;

/// The most events and bytes that are written out.
const MOST_EVENTS: usize = 100;
const MOST_BYTES: usize = 4096;

/// The whole report of a difference.
pub fn difference_text(case: &Case, short: &Short<Difference>) -> String {
    let Short { file, difference: Difference { way, wanted, outcome } } = short;
    let title = match way {
        Way::Answers => "the answers differ",
        Way::Record => "the records at the end (--record) differ",
    };
    let mut text = recording_text(case, file) + &results_text(title, file, (wanted, outcome), bytes_text);
    if let (Way::Record, Wanted::Bytes(wanted), Outcome::Given(given)) = (way, wanted, outcome) {
        text += &record_text(wanted, &given.output);
    }
    text
}

/// The short recording of a difference in hex and in words.
pub fn recording_text(case: &Case, file: &[u8]) -> String {
    let events = Header::read(file).and_then(|header| parts(&header, file));
    hex_text(case, file, events.map(|(events, _)| events.len())) + &file_text(file)
}

/// The short recording of a difference in hex, with the number of its events, if they can be counted.
pub fn hex_text(case: &Case, file: &[u8], events: Option<usize>) -> String {
    let Case { group, name, .. } = case;
    let mut text = format!("DIFFERENCE in \"{group}: {name}\"; short recording of {} bytes", file.len());
    if let Some(events) = events {
        let _ = write!(text, " and {events} events");
    }
    text + ":\n" + &rows(&file[..file.len().min(MOST_BYTES)])
}

/// A file in words: the header, the events with the reference's answers, the rules that are broken.
fn file_text(file: &[u8]) -> String {
    let Some(header) = Header::read(file) else { return "  no header\n".to_string() };
    let mut text = header_text(&header);
    let Some((events, page_bytes)) = parts(&header, file) else {
        text.push_str("  the file ends before its events do\n");
        return text;
    };
    let answers = replay(file).answers;
    let mut answers = answers.chunks(ANSWER_BYTES);
    text += &events_text(&events, |_| {
        let answer = answers.next();
        answer.map_or(String::new(), |it| format!("the reference answers {} ({})", it[0], when(it[0])))
    });
    let _ = writeln!(text, "  {} page bytes", page_bytes.len());
    text
}

/// A header in words.
pub fn header_text(header: &Header) -> String {
    format!(
        "  event count {}, first event at {}, page bytes at {}, total {}\n",
        header.event_count, header.first_event, header.page_bytes, header.total
    )
}

/// A line for each event, with a remark about it, if there is one.
pub fn events_text(events: &[Event], mut remark: impl FnMut(usize) -> String) -> String {
    let mut text = String::new();
    for (number, event) in events.iter().enumerate().take(MOST_EVENTS) {
        let remark = Some(remark(number)).filter(|remark| !remark.is_empty());
        let remark = remark.map_or(String::new(), |remark| format!("; {remark}"));
        let _ = writeln!(text, "  {number}. {}{remark}", event_text(event));
    }
    if events.len() > MOST_EVENTS {
        let _ = writeln!(text, "  and {} events more", events.len() - MOST_EVENTS);
    }
    text
}

/// An event in words.
pub fn event_text(event: &Event) -> String {
    let Event { nexus, argument, page_offset, page_length, .. } = event;
    let mut text = format!("kind {} ({})", event.kind, name_of(&CALLS, event.kind).unwrap_or("no event"));
    let fields = fields_of(event.kind);
    if *nexus != 0 || fields.is_some_and(|fields| fields.nexus) {
        let _ = write!(text, ", nexus {nexus}");
    }
    if *argument != 0 || fields.is_some_and(|fields| fields.argument) {
        let _ = match event.kind {
            kind::IN | kind::OUT => write!(text, ", page code {argument:04X}h"),
            kind::WRITE => write!(text, ", support flag {argument}"),
            kind::VENDOR_RELEASE => write!(text, ", place {argument}"),
            kind::READ => write!(text, ", block kind {}, key {}", argument >> 8, argument & 0xFF),
            _ => write!(text, ", argument {argument}"),
        };
    }
    if (*page_offset, *page_length) != (0, 0) || fields.is_some_and(|fields| fields.page) {
        let _ = write!(text, ", page of {page_length} bytes at {page_offset}");
    }
    text
}

/// Both results under a title, with what is written on standard output told by `tell`.
pub fn results_text(
    title: &str,
    file: &[u8],
    (wanted, outcome): (&Wanted, &Outcome),
    tell: fn(&[u8]) -> String,
) -> String {
    let mut text = format!("{title}:\n    reference: {}", wanted_text(wanted, tell));
    for rule in broken_rules(file) {
        let _ = writeln!(text, "        the file breaks {rule:?}");
    }
    text + &format!("    other: {}", outcome_text(outcome, tell))
}

/// What the reference gives, in words.
fn wanted_text(wanted: &Wanted, tell: fn(&[u8]) -> String) -> String {
    match wanted {
        Wanted::Bytes(bytes) => tell(bytes),
        Wanted::Refusal(number) => format!("refused with {number}, nothing written\n"),
        Wanted::Usage => "its usage, nothing written\n".to_string(),
    }
}

/// What the other program gave, in words.
fn outcome_text(outcome: &Outcome, tell: fn(&[u8]) -> String) -> String {
    match outcome {
        Outcome::Nothing(why) => format!("{why}\n"),
        Outcome::Given(given) if given.errors.is_empty() => tell(&given.output),
        Outcome::Given(given) => {
            let errors = String::from_utf8_lossy(&given.errors);
            format!("on standard error {:?}, and {}", errors.trim_end(), tell(&given.output))
        }
    }
}

/// Lines, each as a program would have to write it.
pub fn lines_text(bytes: &[u8]) -> String {
    let mut text = format!("{} bytes on standard output\n", bytes.len());
    for line in bytes.split_inclusive(|&byte| byte == b'\n') {
        text += &format!("        {:?}\n", String::from_utf8_lossy(line));
    }
    text
}

/// Answers, a record or a file.
pub fn bytes_text(bytes: &[u8]) -> String {
    format!("{} bytes on standard output\n{}", bytes.len(), rows(&bytes[..bytes.len().min(MOST_BYTES)]))
}

/// The fields in which two records differ.
fn record_text(reference: &[u8], other: &[u8]) -> String {
    if other.len() != RECORD_BYTES {
        return String::new();
    }
    differing_fields_text(reference, other)
}
