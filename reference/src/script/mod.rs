//! A recording as text, and a text as recording: docs/RECORDINGS.md.
//!
//! A text is a line for each event. The page bytes are those that its lines say, in the order of the lines.

mod bytes;
mod calls;
mod fields;
mod sentences;
mod set_page;
mod unsound;
mod words;

pub use fields::Fields;
pub use sentences::Sentences;
pub use unsound::unsound;

use crate::answer_words::short;
use crate::recording::{event_rules, events_end, Event, Recording};
use crate::recording::{ANSWER_BYTES, EVENT_BYTES, HEADER_BYTES, LONGEST, MOST_EVENTS};
use crate::stream::kind;
use calls::{Line, Page};

/// So many words for bytes stand on a line of page bytes.
const WORDS_A_LINE: usize = 24;

/// What is wrong with a text, and in which line, counted from 1.
#[derive(Clone, PartialEq, Eq, Debug)]
pub struct Fault {
    pub line: usize,
    pub what: String,
}

/// The text of a sound recording. A page that stands just after the page bytes said before it is said with its event;
/// for any other the event has its offset and length. The page bytes left over stand on lines of their own at the end.
pub fn show(recording: &Recording) -> String {
    let mut text = String::new();
    let mut said = 0;
    for event in &recording.events {
        let page = match (event.kind, usize::from(event.page_offset) == said) {
            (kind::OUT, true) => {
                said += usize::from(event.page_length);
                calls::page_words(page_of(recording, event), bytes::text)
            }
            _ => format!("at {} length {}", event.page_offset, event.page_length),
        };
        text += &calls::words(event, &page);
        text.push('\n');
    }
    for line in bytes::words(&recording.page_bytes[said..]).chunks(WORDS_A_LINE) {
        text += &format!("page bytes {}\n", line.join(" "));
    }
    text
}

/// An event in words, its page by its fields or bytes wherever it stands; long lists of bytes are shortened.
pub fn event_words(recording: &Recording, event: &Event) -> String {
    calls::words(event, &calls::page_words(page_of(recording, event), bytes::shortened))
}

/// A replayed recording in words: for each event a line with its position from 0, the call, and the answer, four bytes
/// an event. The positions stand below each other.
pub fn told(recording: &Recording, answers: &[u8]) -> String {
    told_with(recording, answers, &Fields::default(), &Sentences::default())
}

/// The same, with the wrong field in the answer to each page that has one, and the sentences beside the writes that they
/// are for.
pub fn told_with(recording: &Recording, answers: &[u8], fields: &Fields, sentences: &Sentences) -> String {
    let events = recording.events.iter().zip(answers.chunks_exact(ANSWER_BYTES)).enumerate();
    let width = recording.events.len().saturating_sub(1).to_string().len();
    let line = |(position, (event, answer)): (usize, (&Event, &[u8]))| {
        let answer = short(answer[0], [answer[1], answer[2], answer[3]], fields.at(position));
        let beside = sentences.beside(position);
        format!("{position:>width$}  {} -> {answer}{beside}\n", event_words(recording, event))
    };
    events.map(line).collect()
}

/// The page of an event of a sound recording.
fn page_of<'recording>(recording: &'recording Recording, event: &Event) -> &'recording [u8] {
    recording.page(event).expect("a sound recording has its pages within the page bytes")
}

/// The recording that a text says.
pub fn make(text: &str) -> Result<Recording, Fault> {
    let mut made = Made::default();
    for (before, line) in text.trim_start_matches('\u{FEFF}').lines().enumerate() {
        made.add(before + 1, line).map_err(|what| Fault { line: before + 1, what })?;
    }
    made.pages_are_in_page_bytes()?;
    Ok(made.recording)
}

/// The recording so far.
#[derive(Default)]
struct Made {
    recording: Recording,
    /// The events whose offset and length are said, with their lines.
    placed: Vec<(usize, Event)>,
}

impl Made {
    /// Adds what a line says.
    fn add(&mut self, number: usize, line: &str) -> Result<(), String> {
        match calls::read(line)? {
            None => return Ok(()),
            Some(Line::PageBytes(bytes)) => self.recording.page_bytes.extend(bytes),
            Some(Line::Call(mut event, page)) => {
                match page {
                    None => {}
                    Some(Page::Here(page)) => {
                        event.page_offset = self.recording.page_bytes.len() as u16;
                        event.page_length = page.len() as u16;
                        self.recording.page_bytes.extend(page);
                    }
                    Some(Page::At { offset, length }) => {
                        (event.page_offset, event.page_length) = (offset, length);
                        self.placed.push((number, event));
                    }
                }
                self.recording.events.push(event);
            }
        }
        self.is_not_too_long()
    }

    /// The total length is a number of two bytes.
    fn is_not_too_long(&self) -> Result<(), String> {
        let (events, pages) = (self.recording.events.len(), self.recording.page_bytes.len());
        if events > MOST_EVENTS {
            return Err(format!("more than {MOST_EVENTS} events"));
        }
        let total = events_end(events) + pages;
        if total > LONGEST {
            return Err(format!(
                "the recording has {total} bytes up to here ({HEADER_BYTES}, {EVENT_BYTES} for each of {events} \
                 events, and {pages} of pages), more than {LONGEST}"
            ));
        }
        Ok(())
    }

    /// No page has "offset plus length past the page bytes".
    fn pages_are_in_page_bytes(&self) -> Result<(), Fault> {
        let count = self.recording.page_bytes.len();
        let past = self.placed.iter().find(|(_, event)| !event_rules(event, count).is_empty());
        let Some(&(line, Event { page_offset: offset, page_length: length, .. })) = past else {
            return Ok(());
        };
        let end = usize::from(offset) + usize::from(length);
        let what =
            format!("the page at {offset} of length {length} ends at {end}, past the {count} page bytes");
        Err(Fault { line, what })
    }
}
