//! 02, request 3: the file of a recorded session, and which files are refused.

use crate::given::k;
use reference::record::Record;
use reference::recording::{broken, broken_rules, replay, Broken, Event, Field, FileRule, Part};
use reference::recording::{Recording, Replayed, Verdict};

/// The request's file.
const REQUESTS: [u8; 16] = [0, 1, 0, 8, 0, 16, 0, 16, 5, 0, 0, 0, 0, 0, 0, 0];

/// An event with a kind, a nexus and an argument.
pub const fn event(kind: u8, nexus: u8, argument: u16) -> Event {
    Event { kind, nexus, argument, page_offset: 0, page_length: 0 }
}

/// OUT of the page bytes from an offset on.
pub fn out(nexus: u8, page_offset: u16, page_length: u16) -> Event {
    Event { kind: 2, nexus, argument: 0x0010, page_offset, page_length }
}

/// The file of some events over some page bytes.
pub fn file(events: &[Event], page_bytes: &[u8]) -> Vec<u8> {
    Recording { events: events.to_vec(), page_bytes: page_bytes.to_vec() }.bytes()
}

/// The answers to some events over some page bytes, four bytes each.
pub fn answers(events: &[Event], page_bytes: &[u8]) -> Vec<[u8; 4]> {
    let replayed = replay(&file(events, page_bytes));
    assert_eq!(replayed.verdict, Verdict::Taken);
    replayed.answers.chunks(4).map(|answer| answer.try_into().expect("four bytes")).collect()
}

/// A file is "refused whole with 22, and nothing is written".
fn is_refused(file: &[u8]) -> bool {
    let refused =
        Replayed { verdict: Verdict::WrongRecording, answers: Vec::new(), record: Record::power_on() };
    let replayed = replay(file);
    assert_eq!(replayed.verdict.number(), if replayed == refused { 22 } else { 0 });
    assert_eq!(Recording::read(file).is_none(), replayed == refused);
    replayed == refused
}

/// A sound file with some bytes changed.
fn changed(file: &[u8], changes: &[(usize, u8)]) -> Vec<u8> {
    let mut file = file.to_vec();
    for &(at, value) in changes {
        file[at] = value;
    }
    file
}

#[test]
fn the_requests_file() {
    let expected =
        Replayed { verdict: Verdict::Taken, answers: vec![0, 0, 0, 0], record: Record::power_on() };
    assert_eq!(replay(&REQUESTS), expected);
    assert_eq!(file(&[event(5, 0, 0)], &[]), REQUESTS);
}

#[test]
fn layout_of_a_file() {
    // two events: page bytes at 8 + 2 * 8 = 24 = 18h, total 24 + 52 = 76 = 4Ch
    let expected = [
        &[0, 2, 0, 8, 0, 0x18, 0, 0x4C][..],
        &[2, 3, 0x00, 0x10, 0, 0, 0, 0x34],
        &[3, 3, 0x00, 0x01, 0, 0, 0, 0],
        &k(),
    ]
    .concat();
    assert_eq!(file(&[out(3, 0, 52), event(3, 3, 1)], &k()), expected);
    let read = Recording::read(&expected).expect("the file is sound");
    assert_eq!(read.events, [out(3, 0, 52), event(3, 3, 1)]);
    assert_eq!(read.page_bytes, k());
    assert_eq!(read.bytes(), expected);
    assert_eq!(Event::read([11, 15, 1, 255, 0x12, 0x34, 0x56, 0x78]).bytes()[4..], [0x12, 0x34, 0x56, 0x78]);
}

#[test]
fn under_8_bytes() {
    for length in 0..8 {
        assert!(is_refused(&REQUESTS[..length]));
        assert_eq!(broken_rules(&REQUESTS[..length]), [FileRule::Under8Bytes]);
    }
    assert!(!is_refused(&[0, 0, 0, 8, 0, 8, 0, 8]));
}

#[test]
fn total_differs_from_length() {
    for total in [0, 8, 15, 17, 24, 0x1000, 0xFFFF_u16] {
        let [high, low] = total.to_be_bytes();
        let file = changed(&REQUESTS, &[(6, high), (7, low)]);
        assert!(is_refused(&file));
        assert_eq!(broken_rules(&file), [FileRule::Total]);
    }
    assert!(is_refused(&[&REQUESTS[..], &[0]].concat()));
    assert!(is_refused(&REQUESTS[..15]));
}

#[test]
fn wrong_header_values() {
    for first in [0, 7, 9, 16] {
        assert_eq!(broken_rules(&changed(&REQUESTS, &[(3, first)])), [FileRule::FirstEvent]);
    }
    assert!(is_refused(&changed(&REQUESTS, &[(2, 1)])));
    for page_bytes in [0, 8, 15, 17, 24] {
        assert_eq!(broken_rules(&changed(&REQUESTS, &[(5, page_bytes)])), [FileRule::PageBytesStart]);
    }
    assert!(is_refused(&changed(&REQUESTS, &[(1, 0)])));
    assert!(is_refused(&changed(&REQUESTS, &[(1, 2)])));
    assert!(is_refused(&changed(&REQUESTS, &[(0, 0xFF), (1, 0xFF)])));
    // two events told, with their page bytes at 24, over bytes for one
    assert_eq!(broken_rules(&changed(&REQUESTS, &[(1, 2), (5, 24)])), [FileRule::EventsPastEnd]);
    // 2000h events of 8 bytes are 65,536 bytes
    assert!(is_refused(&[0x20, 0, 0, 8, 0, 8, 0, 8]));
}

#[test]
fn where_a_rule_is_broken() {
    let found = |file: &[u8]| -> Vec<(FileRule, Part, Option<usize>)> {
        let place =
            |broken: &Broken| (broken.rule, broken.rule.part(), broken.event.map(|(position, _)| position));
        broken(file).iter().map(place).collect()
    };
    // header number 4, then 2, 3 and 1
    let rules = [FileRule::Total, FileRule::FirstEvent, FileRule::PageBytesStart, FileRule::EventsPastEnd];
    let expected: Vec<_> = rules
        .into_iter()
        .zip([4, 2, 3, 1])
        .map(|(rule, number)| (rule, Part::HeaderNumber(number), None))
        .collect();
    assert_eq!(found(&changed(&REQUESTS, &[(1, 9), (3, 9), (7, 9)])), expected);
    assert_eq!(found(&[0; 7]), [(FileRule::Under8Bytes, Part::Length, None)]);
    let events = [event(5, 0, 0), event(8, 3, 7), event(12, 4, 4), event(5, 4, 4), out(3, 0, 1)];
    let expected = [
        (FileRule::UnusedArgument, Field::Argument, 1),
        (FileRule::Kind, Field::Kind, 2),
        (FileRule::UnusedNexus, Field::Nexus, 3),
        (FileRule::UnusedArgument, Field::Argument, 3),
        (FileRule::PagePastEnd, Field::Page, 4),
    ];
    assert_eq!(
        found(&file(&events, &[])),
        expected.map(|(rule, field, position)| (rule, Part::Field(field), Some(position)))
    );
}

#[test]
fn part_event() {
    let part = [&[0, 1, 0, 8, 0, 20, 0, 20][..], &REQUESTS[8..], &[5, 0, 0, 0]].concat();
    assert!(is_refused(&part));
    // the same four bytes as page bytes that nobody uses
    assert!(!is_refused(&changed(&part, &[(5, 16)])));
}

#[test]
fn kinds() {
    for kind in 0..=255 {
        assert_eq!(is_refused(&changed(&REQUESTS, &[(8, kind)])), kind > 11);
    }
}

#[test]
fn support_flag() {
    for flag in [0, 1, 2, 3, 128, 255, 256, 257, 65_535] {
        assert_eq!(is_refused(&file(&[event(3, 3, flag)], &[])), flag > 1);
        // the nexus makes no difference
        assert_eq!(is_refused(&file(&[event(3, 200, flag)], &[])), flag > 1);
    }
}

#[test]
fn unused_fields() {
    // by kind: the nexus, the argument, the page
    let used = [
        (0, [false, false, false]),
        (1, [true, true, false]),
        (2, [true, true, true]),
        (3, [true, true, false]),
        (4, [false, false, false]),
        (5, [false, false, false]),
        (6, [true, false, false]),
        (7, [false, false, false]),
        (8, [true, false, false]),
        (9, [false, false, false]),
        (10, [false, true, false]),
        (11, [true, true, false]),
    ];
    for (kind, [nexus, argument, page]) in used {
        let sound = file(&[event(kind, 0, 0)], &[0; 256]);
        for (byte, used) in
            [(1, nexus), (2, argument), (3, argument), (4, page), (5, page), (6, page), (7, page)]
        {
            // a support flag of 256 is wrong in itself
            let flag = kind == 3 && byte == 2;
            assert_eq!(
                is_refused(&changed(&sound, &[(8 + byte, 1)])),
                !used || flag,
                "kind {kind}, byte {byte}"
            );
        }
    }
}

#[test]
fn page_past_the_page_bytes() {
    for (offset, length) in
        [(0, 53), (1, 52), (52, 1), (53, 0), (0, 65_535), (65_535, 0), (65_535, 1), (1, 65_535)]
    {
        let file = file(&[event(5, 0, 0), out(3, offset, length)], &k());
        assert_eq!(broken_rules(&file), [FileRule::PagePastEnd], "{length} bytes at {offset}");
        assert!(is_refused(&file));
    }
    for (offset, length) in [(0, 52), (1, 51), (51, 1), (52, 0), (0, 0)] {
        assert!(!is_refused(&file(&[event(5, 0, 0), out(3, offset, length)], &k())));
    }
}

#[test]
fn pages_that_are_not_wrong() {
    // of no bytes, at the end, twice the same, overlapping: 7 for pages that aren't pages
    let events = [out(0, 0, 0), out(1, 52, 0), out(2, 0, 52), out(3, 0, 52), out(4, 1, 50)];
    let expected = [[7, 5, 0x1A, 0], [7, 5, 0x1A, 0], [0; 4], [0; 4], [7, 5, 0x1A, 0]];
    assert_eq!(answers(&events, &k()), expected);
    // bytes that nobody uses, before and after
    assert_eq!(answers(&[out(3, 2, 52)], &[&[9; 2][..], &k(), &[9; 3]].concat()), [[0; 4]]);
    assert_eq!(answers(&[], &[]), [[0; 4]; 0]);
    assert_eq!(answers(&[], &[1, 2, 3]), [[0; 4]; 0]);
}

#[test]
fn other_numbers_are_left_to_the_calls() {
    for kind in [1, 2, 3, 6, 8, 11] {
        for nexus in [16, 255] {
            assert_eq!(answers(&[event(kind, nexus, 0)], &[]), [[2, 0, 0, 0]]);
        }
    }
    for place in [5, 255, 256, 65_535] {
        assert_eq!(answers(&[event(10, 0, place)], &[]), [[13, 0, 0, 0]]);
    }
    for code in [0x0010, 0x0021, 0xFFFF] {
        assert_eq!(answers(&[event(1, 3, code)], &[]), [[6, 5, 0x24, 0]]);
    }
    assert_eq!(answers(&[event(2, 3, 0x0020)], &[]), [[6, 5, 0x24, 0]]);
    assert_eq!(answers(&[event(11, 3, 0x03FF), event(11, 3, 0x0000)], &[]), [[14, 0, 0, 0]; 2]);
}

#[test]
fn largest_files() {
    // 8 + 8,190 * 8 = 65,528, and 7 page bytes
    assert_eq!(answers(&[event(5, 0, 0); 8190], &[0; 7]).len(), 8190);
    assert!(is_refused(&file(&[event(5, 0, 0); 8190], &[0; 8])));
    assert!(is_refused(&file(&[event(5, 0, 0); 8191], &[])));
    // a PUBLIC page of 65,519 bytes, FFEBh of them after byte 3
    let mut page = vec![0; 65_519];
    page[..4].copy_from_slice(&[0, 0x10, 0xFF, 0xEB]);
    assert_eq!(answers(&[out(3, 0, 65_519)], &page), [[0; 4]]);
}

#[test]
fn bytes_and_read_are_inverse() {
    let recording =
        Recording { events: vec![out(3, 1, 52), event(11, 200, 0x03FF)], page_bytes: vec![7; 60] };
    assert_eq!(Recording::read(&recording.bytes()), Some(recording));
    for sound in [&REQUESTS[..], &[0, 0, 0, 8, 0, 8, 0, 8], &[0, 0, 0, 8, 0, 8, 0, 9, 77]] {
        assert_eq!(Recording::read(sound).expect("the file is sound").bytes(), sound);
    }
}
