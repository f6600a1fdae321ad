//! docs/REASONS.md, sentence by sentence, and the program `why`.

use crate::recorded;
use crate::running::{folder, outcome, run};
use reference::why::{Deed, History, Question, Touch};
use std::fs;

const DOCUMENT: &str = concat!(env!("CARGO_MANIFEST_DIR"), "/../docs/REASONS.md");
const WHY: &str = env!("CARGO_BIN_EXE_why");

/// A LOCAL set that a demount releases, and an ALL set.
const LOCAL: &str = "out nexus 3 page 0010h local encrypt decrypt lock ckod key A7*32\n";
const ALL: &str = "page 0010h all encrypt decrypt key A7*32\n";

/// The lines of the document that begin so.
fn lines(start: &str) -> Vec<String> {
    let text = fs::read_to_string(DOCUMENT).expect("the document can be read");
    text.lines().filter(|line| line.starts_with(start)).map(str::to_string).collect()
}

/// The code in a line.
fn code(line: &str) -> Vec<&str> {
    line.split('`').skip(1).step_by(2).collect()
}

/// A session that comes to the sentence of an answer in the table, and the nexus whose write is tried.
fn session(answer: &str) -> (String, u64) {
    let demounts = |count| "demount\n".repeat(count);
    match answer {
        "0" | "12" => (LOCAL.to_string(), 3),
        "2" => (String::new(), 16),
        "3" => {
            let [first, second] = [2, 6].map(|nexus| format!("out nexus {nexus} {ALL}"));
            (format!("{}{first}in nexus 3 page 0020h\n{second}", demounts(2)), 3)
        }
        "4" => (format!("{}{LOCAL}demount\n", demounts(4)), 3),
        "11" => (format!("{}{LOCAL}demount\nwrite nexus 3 supported\n", demounts(6)), 3),
        other => panic!("{other} is no answer of the table"),
    }
}

#[test]
fn each_sentence_of_the_table_is_told() {
    let rows: Vec<String> = lines("| ").into_iter().filter(|row| row.contains('`')).collect();
    assert_eq!(rows.len(), 7);
    // 1 never comes after power-on
    for row in rows.iter().filter(|row| !row.starts_with("| 1 |")) {
        let answer = row.trim_matches('|').split('|').next().unwrap_or_default().trim();
        let (text, nexus) = session(answer);
        let history = History::of(&recorded(&text));
        let question = Question { events: history.calls.len() as u64, nexus, supported: answer != "12" };
        let reason = history.reason(question).expect("there are so many events");
        assert_eq!(
            (reason.answer().to_string().as_str(), reason.sentence().as_str()),
            (answer, code(row)[0])
        );
    }
}

#[test]
fn each_name_of_a_kind_and_each_deed_is_told() {
    let [kinds, deeds] = ["- An event is told", "- What it did"].map(|start| lines(start).concat());
    let touch = |kind, deed| Touch { position: 4, kind, nexus: 6, place: 0, deed };
    let names = code(&kinds);
    assert_eq!(names.len(), 12);
    for (kind, name) in (0..).zip(names) {
        let nexus = if [1, 2, 3, 6, 8, 11].contains(&kind) { ", nexus 6" } else { "" };
        let told = touch(kind, Deed::Established).to_string();
        assert_eq!(told, format!("event 4 ({name}{nexus}) established a set in place 0"));
    }
    let every = [(Deed::Established, 0), (Deed::Replaced, 0), (Deed::Evicted, 1), (Deed::Released, 1)];
    for ((deed, place), words) in every.into_iter().zip(code(&deeds)) {
        assert!(Touch { place, ..touch(5, deed) }.to_string().ends_with(words), "{words}");
    }
}

#[test]
fn why_tells_two_lines_or_refuses() {
    let folder = folder("why");
    let file = recorded(&format!("power-on\n{LOCAL}demount\nwrite nexus 3 supported\n")).bytes();
    fs::write(folder.join("f"), &file).expect("a file can be written");
    fs::write(folder.join("wrong"), &file[1..]).expect("a file can be written");
    let why = |arguments: &[&str]| outcome(&run(WHY, &folder, arguments, &file));
    let locked =
        "11 5 2\nthe nexus is locked: event 2 (demount) released the set in place 1, which this nexus used\n";
    for arguments in
        [&["f", "4", "3", "1"][..], &["f", "004", "03", "0"], &["-", "4", "3", "1"], &["4", "3", "1"]]
    {
        assert_eq!(why(arguments), (0, locked.to_string(), String::new()));
    }
    let (status, output, _) = why(&["f", "--every"]);
    assert_eq!((status, output.lines().count()), (0, 2 * 5 * 17 * 2));
    let writes = "3 a unit attention is pending: event 2 (demount) released the set in place 1, which this nexus used\n";
    assert_eq!(why(&["f", "--writes"]), (0, writes.to_string(), String::new()));
    for (arguments, number) in [
        (["f", "5", "3", "1"], "19 "),
        (["f", "5", "16", "1"], "19 "),
        (["f", "99999999999999999999", "3", "1"], "19 "),
        (["wrong", "0", "3", "1"], "22 "),
        (["wrong", "99999", "16", "1"], "22 "),
    ] {
        let (status, output, error) = why(&arguments);
        assert!(status == 1 && output.is_empty() && error.starts_with(number), "{arguments:?}: {error}");
    }
    let wrong: [&[&str]; 8] = [
        &[],
        &["f"],
        &["f", "4", "3"],
        &["f", "4", "3", "2"],
        &["f", "4", "-1", "1"],
        &["f", "4", "3", "1", "1"],
        &["f", "--all"],
        &["none", "4", "3", "1"],
    ];
    for arguments in wrong {
        let (status, output, error) = why(arguments);
        assert!(status == 2 && output.is_empty() && !error.is_empty(), "{arguments:?}: {error}");
    }
    assert!(why(&["--help"]).1.starts_with("usage: why"));
}
