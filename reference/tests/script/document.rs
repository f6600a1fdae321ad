//! The tables and examples of docs/RECORDINGS.md itself.

use crate::comments::said;
use crate::examples::{replies, text};
use crate::{parts, recorded, shown};
use reference::recording::answer_bytes;
use reference::script::{event_words, told, told_with, Fields, Sentences};
use reference::why::History;

const DOCUMENT: &str = concat!(env!("CARGO_MANIFEST_DIR"), "/../docs/RECORDINGS.md");

/// The lines of a section.
fn section(heading: &str) -> Vec<String> {
    let text = std::fs::read_to_string(DOCUMENT).expect("the document can be read");
    let lines = text.lines().skip_while(|line| *line != format!("## {heading}")).skip(1);
    lines.take_while(|line| !line.starts_with("## ")).map(str::to_string).collect()
}

/// The rows of a section's table, cell by cell.
fn rows(heading: &str) -> Vec<Vec<String>> {
    let lines = section(heading);
    let rows = lines.iter().filter(|line| line.starts_with("| `"));
    rows.map(|row| row.trim_matches('|').split('|').map(|cell| cell.trim().to_string()).collect()).collect()
}

/// The code in a cell.
fn code(cell: &str) -> Vec<&str> {
    cell.split('`').skip(1).step_by(2).collect()
}

/// A section's indented lines.
fn indented(heading: &str) -> String {
    let lines = section(heading);
    lines.iter().filter_map(|line| line.strip_prefix("    ")).map(|line| format!("{line}\n")).collect()
}

#[test]
fn each_line_of_the_table_of_calls_is_of_its_kind_and_is_shown_as_it_is() {
    let rows = rows("A line is a call");
    assert_eq!(rows.len(), 12);
    for (number, row) in rows.iter().enumerate() {
        assert_eq!(row[1], number.to_string());
        for line in code(&row[0]) {
            let page = if row[0].ends_with("and the page") { " public" } else { "" };
            let line = format!("{line}{page}\n");
            assert_eq!((parts(&line).0[0], shown(&line)), (number as u8, line));
        }
    }
}

#[test]
fn each_word_of_the_table_of_fields_is_shown_as_it_is() {
    let rows = rows("The page of an `out`");
    assert_eq!(rows.len(), 11);
    let mut count = 0;
    for row in &rows {
        for words in code(&row[0]) {
            let page = match row[1].as_str() {
                "SCOPE" if words == "public" => words.to_string(),
                "SCOPE" => format!("{words} encrypt mixed"),
                "encryption mode" => format!("local {words} mixed"),
                "decryption mode" => format!("local encrypt {words}"),
                _ => format!("public {words}"),
            };
            let line = format!("out nexus 3 page 0010h {page}\n");
            assert_eq!(shown(&line), line);
            count += 1;
        }
    }
    assert_eq!(count, 24);
}

#[test]
fn the_example_of_pages_elsewhere_is_shown_as_it_is() {
    let text = indented("Where pages stand");
    assert_eq!(shown(&text), text);
    let recording = recorded(&text);
    let words: Vec<String> = recording.events.iter().map(|event| event_words(&recording, event)).collect();
    assert_eq!(words[1..], ["out nexus 4 page 0010h public lock", "out nexus 4 page 0010h bytes empty"]);
    assert_eq!(recording.page_bytes[20..], [0xFF, 0xFF]);
}

#[test]
fn the_example_is_answered_as_its_comments_tell_and_is_told_in_words() {
    let text = indented("An example");
    let recording = recorded(&text);
    let replies = replies(&recording);
    let lines = text.lines().filter(|line| !line.starts_with('#'));
    for (line, (event, reply)) in lines.zip(recording.events.iter().zip(&replies)) {
        let answer = said(reply, event).0;
        assert_eq!(line.split_once("# ").map_or("0", |(_, comment)| comment), answer, "{line}");
    }
    assert_eq!(recording.events.len(), 7);
    let answers: Vec<u8> = replies.iter().flat_map(answer_bytes).collect();
    let reasons = History::of(&recording).reasons_of_writes();
    let sentences = Sentences::read(&reasons, &recording, &answers).expect("each refused write has a reason");
    let words = told_with(&recording, &answers, &Fields::default(), &sentences);
    assert!(words.contains(&replayed()[0]), "{words}");
}

#[test]
fn the_months_wrong_pages_are_told_with_their_fields() {
    let recording = recorded(&text("month"));
    let mut replies = replies(&recording);
    // 02, request 6: "request 2's CEEM to 5", and half a key has a wrong length
    replies[36].data = vec![0, 5];
    replies[37].data = vec![0, 18];
    let answers: Vec<u8> = replies.iter().flat_map(answer_bytes).collect();
    let fields = Fields::of(&recording, &replies);
    let words = told_with(&recording, &answers, &fields, &Sentences::default());
    assert!(words.contains(&replayed()[1]), "{words}");
    // the other lines have no field, and none is told without the replies
    let told = told(&recording, &answers);
    let other = words.lines().zip(told.lines()).filter(|(with, without)| with != without);
    assert_eq!(other.count(), 2);
    assert!(told.contains(" -> 8 field of the page wrong (5/26/00)\n"));
}

/// The two examples of "Replay in words".
fn replayed() -> [String; 2] {
    let lines = section("Replay in words");
    let blocks = lines.split(|line| !line.starts_with("    ")).filter(|block| !block.is_empty());
    let text = |block: &[String]| block.iter().map(|line| format!("{}\n", &line[4..])).collect();
    let blocks: Vec<String> = blocks.map(text).collect();
    blocks.try_into().expect("there are two")
}
