//! Tests of recordings as text, in words, and of reasons: docs/RECORDINGS.md and docs/REASONS.md, sentence by sentence.

#![forbid(unsafe_code)]

#[path = "../../src/bin/support/comments.rs"]
mod comments;
mod demo;
mod document;
mod events;
mod examples;
mod fields;
mod inverse;
mod layout;
mod programs;
mod random_recordings;
mod random_texts;
mod reasons;
#[path = "../support/recorded.rs"]
mod recorded;
mod refusals;
#[path = "../support/running.rs"]
mod running;
mod set_page;
mod unsound;

use recorded::recorded;
use reference::script::{make, show};

/// The shown text of the recording that a text makes.
fn shown(text: &str) -> String {
    show(&recorded(text))
}

/// The line and the words of what is wrong with a text.
fn refused(text: &str) -> (usize, String) {
    let fault = make(text).err().unwrap_or_else(|| panic!("the text is taken: {text}"));
    (fault.line, fault.what)
}

/// The events' bytes and the page bytes of a text's recording.
fn parts(text: &str) -> (Vec<u8>, Vec<u8>) {
    let recording = recorded(text);
    let (file, events) = (recording.bytes(), 8 + 8 * recording.events.len());
    (file[8..events].to_vec(), file[events..].to_vec())
}
