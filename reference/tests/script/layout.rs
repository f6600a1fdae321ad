//! "Where pages stand".

use crate::{parts, recorded, shown};
use reference::recording::{Event, Recording};
use reference::script::{event_words, show, told};

/// The recording of OUTs with these places in the page bytes.
fn placed(places: &[(u16, u16)], page_bytes: &[u8]) -> Recording {
    let out =
        |&(page_offset, page_length)| Event { kind: 2, nexus: 3, argument: 0x0010, page_offset, page_length };
    Recording { events: places.iter().map(out).collect(), page_bytes: page_bytes.to_vec() }
}

/// The words for the pages, and the lines of page bytes.
fn pages(recording: &Recording) -> Vec<String> {
    let text = show(recording);
    assert_eq!(recorded(&text).bytes(), recording.bytes(), "{text}");
    text.lines().map(|line| line.trim_start_matches("out nexus 3 page 0010h ").to_string()).collect()
}

#[test]
fn pages_stand_just_after_the_page_bytes_before() {
    let (events, page_bytes) = parts(
        "out nexus 3 page 0010h bytes 01 02\ndemount\n\
         out nexus 3 page 0010h bytes empty\nout nexus 3 page 0010h public",
    );
    assert_eq!(events[4..8], [0, 0, 0, 2]);
    assert_eq!(events[20..24], [0, 2, 0, 0]);
    assert_eq!(events[28..32], [0, 2, 0, 20]);
    assert_eq!((page_bytes.len(), &page_bytes[..2]), (22, &[1, 2][..]));
}

#[test]
fn a_page_elsewhere_has_its_offset_and_length() {
    assert_eq!(pages(&placed(&[(0, 2), (2, 1)], &[1, 2, 3])), ["bytes 01 02", "bytes 03"]);
    assert_eq!(
        pages(&placed(&[(2, 1), (0, 2)], &[1, 2, 3])),
        ["at 2 length 1", "bytes 01 02", "page bytes 03"]
    );
    assert_eq!(
        pages(&placed(&[(1, 1), (0, 0)], &[1, 2, 3])),
        ["at 1 length 1", "bytes empty", "page bytes 01 02 03"]
    );
    assert_eq!(pages(&placed(&[(0, 2), (0, 2)], &[1, 2])), ["bytes 01 02", "at 0 length 2"]);
    assert_eq!(
        pages(&placed(&[(0, 2), (1, 2)], &[1, 2, 3])),
        ["bytes 01 02", "at 1 length 2", "page bytes 03"]
    );
    assert_eq!(pages(&placed(&[(0, 1), (2, 0)], &[1, 2])), ["bytes 01", "at 2 length 0", "page bytes 02"]);
    assert_eq!(pages(&placed(&[(2, 0)], &[1, 2])), ["at 2 length 0", "page bytes 01 02"]);
}

#[test]
fn in_words_a_page_is_told_wherever_it_stands() {
    let recording = placed(&[(0, 2), (1, 1), (0, 0)], &[1, 2]);
    let words: Vec<String> = recording.events.iter().map(|event| event_words(&recording, event)).collect();
    let pages = ["bytes 01 02", "bytes 02", "bytes empty"];
    assert_eq!(words, pages.map(|page| format!("out nexus 3 page 0010h {page}")));
}

#[test]
fn in_words_the_positions_stand_below_each_other() {
    let lines = |count: usize| {
        let recording = recorded(&"demount\n".repeat(count));
        told(&recording, &vec![0; 4 * count])
    };
    assert_eq!(lines(0), "");
    assert!(lines(10).ends_with("\n9  demount -> 0 done\n"));
    let text = lines(101);
    assert!(text.starts_with("  0  demount -> 0 done\n  1  demount"));
    assert!(text.contains("\n 10  demount -> 0 done\n") && text.ends_with("\n100  demount -> 0 done\n"));
}

#[test]
fn page_bytes_may_stand_anywhere() {
    let text = "page bytes 01 02\nout nexus 3 page 0010h bytes 03\n\
                out nexus 3 page 0010h at 3 length 1\npage bytes 04";
    let (events, page_bytes) = parts(text);
    assert_eq!((&events[4..8], &events[12..16]), (&[0, 2, 0, 1][..], &[0, 3, 0, 1][..]));
    assert_eq!(page_bytes, [1, 2, 3, 4]);
    let shown_text =
        "out nexus 3 page 0010h at 2 length 1\nout nexus 3 page 0010h at 3 length 1\npage bytes 01 02 03 04\n";
    assert_eq!(shown(text), shown_text);
}

#[test]
fn a_line_of_page_bytes_has_up_to_24_bytes_or_runs() {
    let bytes: Vec<u8> = (0..50).collect();
    let lines = pages(&placed(&[], &bytes));
    let counts: Vec<usize> = lines.iter().map(|line| line.split(' ').count() - 2).collect();
    assert_eq!(counts, [24, 24, 2]);
    assert_eq!(pages(&placed(&[], &[0; 60_000])), ["page bytes 00*60000"]);
}

#[test]
fn a_run_is_shown_from_three_bytes_alike() {
    assert_eq!(pages(&placed(&[], &[5, 5, 6, 6, 6])), ["page bytes 05 05 06*3"]);
}
