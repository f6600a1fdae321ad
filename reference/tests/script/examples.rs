//! examples/: each text makes its recording, and its comments tell the answers.

use crate::comments::{comments, holds, said};
use crate::recorded;
use reference::recording::Recording;
use reference::script::{event_words, show};
use reference::stream::{Drive, Reply};
use std::collections::BTreeSet;
use std::path::PathBuf;

fn example(name: &str) -> PathBuf {
    PathBuf::from(concat!(env!("CARGO_MANIFEST_DIR"), "/../examples")).join(name)
}

pub fn text(name: &str) -> String {
    std::fs::read_to_string(example(&format!("{name}.txt"))).expect("the text can be read")
}

/// The drive's replies to the events of a recording.
pub fn replies(recording: &Recording) -> Vec<Reply> {
    let mut drive = Drive::new();
    recording.events.iter().map(|event| drive.answer(&recording.command(event))).collect()
}

/// The example's comments hold; gives the answers and decisions that occur.
fn assert_comments(name: &str) -> BTreeSet<String> {
    let text = text(name);
    let recording = recorded(&text);
    let comments = comments(&text);
    assert_eq!(comments.len(), recording.events.len());
    let mut all = BTreeSet::new();
    for (comment, (event, reply)) in comments.iter().zip(recording.events.iter().zip(replies(&recording))) {
        assert!(holds(comment, &reply, event), "{}: {comment}, {reply:?}", event_words(&recording, event));
        all.insert(said(&reply, event).0);
    }
    all
}

#[test]
fn each_text_makes_its_recording() {
    for name in ["month", "restore"] {
        let file = std::fs::read(example(&format!("{name}.rec"))).expect("the recording can be read");
        assert_eq!(recorded(&text(name)).bytes(), file, "{name}");
        assert_eq!(recorded(&show(&Recording::read(&file).expect("it is sound"))).bytes(), file, "{name}");
    }
}

#[test]
fn a_month_has_what_an_archive_meets() {
    let all = assert_comments("month");
    for word in ["3", "4", "6", "7", "8", "9", "11", "12", "13", "14", "clear", "external", "encrypted"] {
        assert!(all.contains(word), "{word}");
    }
    let recording = recorded(&text("month"));
    assert!((60..=120).contains(&recording.events.len()));
    for kind in 0..=11 {
        assert!(recording.events.iter().any(|event| event.kind == kind), "kind {kind}");
    }
    let hosts: BTreeSet<u8> = recording.events.iter().map(|event| event.nexus).collect();
    assert_eq!(hosts, BTreeSet::from([0, 1, 2, 3]));
}

#[test]
fn a_restoring_day_reads_in_every_way() {
    let all = assert_comments("restore");
    for word in
        ["2", "4", "9", "11", "14", "15", "16", "17", "plain", "raw", "decrypted", "clear", "encrypted"]
    {
        assert!(all.contains(word), "{word}");
    }
}
