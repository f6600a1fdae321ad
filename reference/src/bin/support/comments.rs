//! The comments of a recording's text: what is to come of each call stands after "->".

use reference::field_words::faulty_byte;
use reference::names::{READ, WRITTEN};
use reference::recording::Event;
use reference::stream::{kind, Reply};

/// A write or read that is answered 0 without telling one of these.
const UNKNOWN: &str = "unknown";

/// What a text says is to come of each of its calls: the comment after "->", or 0 where there is none.
pub fn comments(text: &str) -> Vec<String> {
    let lines = text.lines().map(|line| line.split_once('#').unwrap_or((line, "")));
    let calls = lines.filter(|(call, _)| !call.trim().is_empty());
    calls
        .map(|(_, comment)| comment.split_once("->").map_or("0", |(_, said)| said.trim()).to_string())
        .collect()
}

/// What a comment says of a reply: its number, or what becomes of the block, and the place.
pub fn said(reply: &Reply, event: &Event) -> (String, Option<u8>) {
    let decisions = match (reply.number, event.kind) {
        (0, kind::WRITE) => WRITTEN,
        (0, kind::READ) => READ,
        (number, _) => return (number.to_string(), None),
    };
    let decision = reply.data.first().and_then(|&decision| decisions.get(usize::from(decision)));
    (decision.unwrap_or(&UNKNOWN).to_string(), reply.data.get(1).copied())
}

/// Whether a reply is what a comment says. A place and a faulty byte count where they are named.
pub fn holds(comment: &str, reply: &Reply, event: &Event) -> bool {
    let (word, place) = said(reply, event);
    let same = match comment.split([',', ' ']).next() {
        Some("0") => reply.number == 0 && word != UNKNOWN,
        other => other == Some(&*word),
    };
    same && tells(comment, "place ", place.map(u16::from))
        && tells(comment, "byte ", faulty_byte(event.kind, reply))
}

/// Whether a comment that has a word has this number after it.
fn tells(comment: &str, word: &str, number: Option<u16>) -> bool {
    comment.split_once(word).is_none_or(|(_, rest)| {
        let end = rest.find(|digit: char| !digit.is_ascii_digit()).unwrap_or(rest.len());
        number.map(|number| number.to_string()).as_deref() == Some(&rest[..end])
    })
}
