//! The month: the recording of a small archive's month, event by event, held against the comments of its text.

use crate::comments::{comments, holds, said};
use crate::files::{read, read_recording, shown};
use crate::standard::{print, Ended};
use crate::{is_plain, sense_of, Play, Played};
use reference::answer::FIELD_WRONG;
use reference::claim::{count, row_of, total, Column};
use reference::comparison::session::power_on;
use reference::field_words::faulty_byte;
use reference::recording::{answer_bytes, Event, Recording};
use reference::script::{make, told_with, Fields, Sentences};
use reference::stream::{kind, Reply};
use std::path::Path;

const RECORDING: &str = "examples/month.rec";
const TEXT: &str = "examples/month.txt";

/// The recording, and what its text says is to come of each event.
pub struct Month {
    recording: Recording,
    comments: Vec<String>,
}

impl Month {
    /// Reads both files in the repository's root. A wrong or missing one is a line, with status 1.
    pub fn read(root: &str) -> Result<Month, Ended> {
        let [file, script] = [RECORDING, TEXT].map(|name| Path::new(root).join(name).into_os_string());
        let refused = |ended: Ended| Ended::refused(ended.line);
        let recording = read_recording(&file).map_err(refused)?;
        let text = String::from_utf8(read(&script).map_err(refused)?)
            .map_err(|_| Ended::refused(format!("{} is no text in UTF-8", shown(&script))))?;
        let made = make(&text)
            .map_err(|fault| Ended::refused(format!("{}:{}: {}", shown(&script), fault.line, fault.what)))?;
        let comments = comments(&text);
        if made != recording || comments.len() != recording.events.len() {
            let line = format!("{} is not the text of {}, a line an event", shown(&script), shown(&file));
            return Err(Ended::refused(line));
        }
        Ok(Month { recording, comments })
    }
}

impl Play {
    /// Plays the month and tells each event that isn't answered 0, and the counts.
    pub fn month(&mut self, Month { recording, comments }: &Month) -> Played {
        self.step = "the month";
        say(&format!(
            "\nThe month of a small archive ({RECORDING}): what is not answered 0, as {TEXT} tells it\n"
        ))?;
        let reply = self.pipe.ask(&power_on())?;
        self.check(is_plain(&reply, 0), "answer 0 for power-on");
        let (replies, all_came) = recording.replies(|command| self.pipe.ask(command));
        let answers: Vec<u8> = replies.iter().flat_map(answer_bytes).collect();
        let fields = Fields::of(recording, &replies);
        let told = told_with(recording, &answers, &fields, &Sentences::default());
        let events = recording.events.iter().zip(&replies).zip(comments);
        for (line, ((event, reply), comment)) in told.lines().zip(events) {
            let difference = difference(comment, reply, event);
            if reply.number != 0 || difference.is_some() {
                say(&format!("  {line}\n"))?;
            }
            if let Some(difference) = difference {
                self.differs(&difference);
            }
        }
        all_came.and_then(|()| say(&format!("  {}\n", counts(&recording.events, &replies))))
    }
}

fn say(text: &str) -> Played {
    print(text).map_err(|ended| ended.line)
}

/// How a reply differs from the comment, or from the sense and the data of such an answer.
fn difference(comment: &str, reply: &Reply, event: &Event) -> Option<String> {
    if !holds(comment, reply, event) {
        let (word, place) = said(reply, event);
        let place = place.map_or(String::new(), |place| format!(", place {place}"));
        let byte = faulty_byte(event.kind, reply).map_or(String::new(), |byte| format!(", byte {byte}"));
        return Some(format!("{TEXT} says {comment}; it is {word}{place}{byte}"));
    }
    let has_its_data = match (event.kind, reply.number) {
        // the page's full length, and a lent buffer of no bytes
        (kind::IN, 0) => reply.data.len() == 2,
        (kind::IN, _) => reply.data == [0, 0],
        (kind::OUT, FIELD_WRONG) => reply.data.len() == 2,
        (kind::WRITE, 0) => reply.data.len() == 3,
        (kind::READ, 0) => reply.data.len() == 2,
        _ => reply.data.is_empty(),
    };
    let same = has_its_data && reply.sense == sense_of(reply.number);
    (!same).then(|| format!("answer {} has other sense or data", reply.number))
}

/// How many events were answered 0 and refused, and what became of the writes.
fn counts(events: &[Event], replies: &[Reply]) -> String {
    let refused = replies.iter().filter(|reply| reply.number != 0).count();
    let writes = events.iter().zip(replies).filter(|(event, _)| event.kind == kind::WRITE);
    let cells = writes.map(|(event, reply)| (row_of(event.nexus), Column::of(reply.written())));
    let totals = total(&count(cells));
    format!(
        "{} events: {} answered 0, {refused} refused; writes: {}",
        events.len(),
        replies.len() - refused,
        Column::EVERY.map(|column| format!("{} {}", totals[column], column.name())).join(", "),
    )
}
