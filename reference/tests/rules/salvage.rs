//! 02, request 12: what is salvaged of a file, by bytes written out, and which files aren't salvaged.

use crate::recording::{event, file, out};
use reference::recording::{broken_rules, Header};
use reference::salvage::{causes, salvage, Cause, UNSALVAGEABLE};

/// The request's file, a demount alone.
const REQUESTS: [u8; 16] = [0, 1, 0, 8, 0, 16, 0, 16, 5, 0, 0, 0, 0, 0, 0, 0];

/// A demount, a write with support, and an event of kind 12.
const DEMOUNT: [u8; 8] = [5, 0, 0, 0, 0, 0, 0, 0];
const WRITE: [u8; 8] = [3, 3, 0, 1, 0, 0, 0, 0];
const KIND_12: [u8; 8] = [12, 0, 0, 0, 0, 0, 0, 0];

/// A file of a header's numbers, events and page bytes.
fn damaged(numbers: [u16; 4], events: &[[u8; 8]], page_bytes: &[u8]) -> Vec<u8> {
    let header = numbers.map(u16::to_be_bytes).concat();
    [&header[..], &events.concat(), page_bytes].concat()
}

/// The new file and the report's lines of a file that is salvaged.
fn salvaged(file: &[u8]) -> (Vec<u8>, String) {
    assert_eq!(causes(file), []);
    let salvaged = salvage(file).expect("the file is salvaged");
    (salvaged.file(), salvaged.report.lines())
}

/// The causes of a file that isn't salvaged.
fn refused(file: &[u8]) -> Vec<Cause> {
    assert_eq!(salvage(file), None);
    causes(file)
}

/// The report's lines of old and new numbers and the dropped events.
fn lines(old: [u16; 4], new: [u16; 4], dropped: usize) -> String {
    format!(
        "events {} -> {}\nfirst event {} -> {}\npage bytes {} -> {}\ntotal {} -> {}\ndropped {dropped}\n",
        old[0], new[0], old[1], new[1], old[2], new[2], old[3], new[3]
    )
}

#[test]
fn an_event_dropped() {
    // three events of which the second is wrong: 8 + 3 * 8 = 32, and 2 page bytes
    let file = damaged([3, 8, 32, 100], &[DEMOUNT, KIND_12, WRITE], &[0xAA, 0xBB]);
    let new = [0, 1, 0, 8, 0, 16, 0, 18, 5, 0, 0, 0, 0, 0, 0, 0, 0xAA, 0xBB];
    let report = "events 3 -> 1\nfirst event 8 -> 8\npage bytes 32 -> 16\ntotal 100 -> 18\ndropped 2\n";
    assert_eq!(salvaged(&file), (new.to_vec(), report.to_string()));
}

#[test]
fn sound_files_stay() {
    let unchanged = |file: &[u8], numbers: [u16; 4]| {
        assert_eq!(salvaged(file), (file.to_vec(), lines(numbers, numbers, 0)));
    };
    unchanged(&REQUESTS, [1, 8, 16, 16]);
    unchanged(&[0, 0, 0, 8, 0, 8, 0, 8], [0, 8, 8, 8]);
    unchanged(&[0, 0, 0, 8, 0, 8, 0, 9, 77], [0, 8, 8, 9]);
    // page bytes before and after the page, which no event uses
    let spare = damaged([1, 8, 16, 22], &[[2, 3, 0, 0x10, 0, 2, 0, 3]], &[9, 9, 1, 2, 3, 9]);
    unchanged(&spare, [1, 8, 16, 22]);
    assert_eq!(broken_rules(&spare), []);
}

#[test]
fn shorter_than_8_bytes() {
    for length in 0..8 {
        for bytes in [[0xFF; 8], [0, 0, 0, 8, 0, 8, 0, 7], [0; 8]] {
            assert_eq!(refused(&bytes[..length]), [Cause::Under8Bytes]);
        }
    }
    assert_eq!(UNSALVAGEABLE, 21);
}

#[test]
fn a_header_alone() {
    let empty = vec![0, 0, 0, 8, 0, 8, 0, 8];
    for [count, first, total] in [[0, 0, 0], [1, 8, 16], [9, 9, 9], [0xFFFF; 3]] {
        let numbers = [count, first, 8, total];
        assert_eq!(salvaged(&damaged(numbers, &[], &[])), (empty.clone(), lines(numbers, [0, 8, 8, 8], 0)));
    }
    // of 9 bytes, the last a page byte
    let numbers = [1, 8, 8, 8];
    let new = vec![0, 0, 0, 8, 0, 8, 0, 9, 7];
    assert_eq!(salvaged(&damaged(numbers, &[], &[7])), (new, lines(numbers, [0, 8, 8, 9], 0)));
}

#[test]
fn stored_page_offsets() {
    // three events, 32 bytes
    let of = |offset| damaged([3, 8, offset, 32], &[DEMOUNT; 3], &[]);
    for offset in 0..=32 {
        match offset {
            8 | 16 | 24 | 32 => {
                let events = (offset - 8) / 8;
                let page_bytes = DEMOUNT.repeat(usize::from(3 - events));
                let new = [events, 8, offset, 32];
                let expected = damaged(new, &vec![DEMOUNT; usize::from(events)], &page_bytes);
                assert_eq!(salvaged(&of(offset)), (expected, lines([3, 8, offset, 32], new, 0)));
            }
            _ => assert_eq!(refused(&of(offset)), [Cause::OffsetBetweenEvents], "{offset}"),
        }
    }
    for offset in [40, 48, 256, 0x8000, 65_520, 65_528] {
        assert_eq!(refused(&of(offset)), [Cause::OffsetPastFile]);
    }
    for offset in [33, 39, 41, 65_527, 65_529, 65_535] {
        assert_eq!(refused(&of(offset)), [Cause::OffsetBetweenEvents, Cause::OffsetPastFile]);
    }
    // the last byte of the last event is gone
    assert_eq!(refused(&of(32)[..31]), [Cause::OffsetPastFile]);
    assert_eq!(refused(&damaged([0xFFFF; 4], &[DEMOUNT; 3], &[])).len(), 2);
}

/// A file of so many bytes: a header with a page offset, and power-ons or page bytes of zeros.
fn zeros(length: usize, offset: u16) -> Vec<u8> {
    let mut file = damaged([0, 8, offset, 0], &[], &[]);
    file.resize(length, 0);
    file
}

#[test]
fn up_to_65535_bytes() {
    // 8 + 8,190 * 8 = 65,528, and 7 page bytes
    let (new, report) = salvaged(&zeros(65_535, 65_528));
    assert_eq!(new[..8], [0x1F, 0xFE, 0, 8, 0xFF, 0xF8, 0xFF, 0xFF]);
    assert_eq!((new.len(), &new[8..]), (65_535, &vec![0; 65_527][..]));
    assert_eq!(report, lines([0, 8, 65_528, 0], [8_190, 8, 65_528, 65_535], 0));
    // no page bytes, and one fewer than the offset asks for
    assert_eq!(salvaged(&zeros(65_528, 65_528)).1, lines([0, 8, 65_528, 0], [8_190, 8, 65_528, 65_528], 0));
    assert_eq!(refused(&zeros(65_527, 65_528)), [Cause::OffsetPastFile]);
    // page bytes alone
    assert_eq!(salvaged(&zeros(65_535, 8)).1, lines([0, 8, 8, 0], [0, 8, 8, 65_535], 0));
    for length in [65_536, 65_537, 65_544, 131_072, 131_080] {
        assert_eq!(refused(&zeros(length, 8)), [Cause::Above65535Bytes]);
        assert_eq!(refused(&zeros(length, 65_528)), [Cause::Above65535Bytes]);
        assert_eq!(refused(&zeros(length, 9)), [Cause::Above65535Bytes, Cause::OffsetBetweenEvents]);
    }
    for offset in [0, 7, 9, 15, 65_527, 65_529, 65_535] {
        assert_eq!(refused(&zeros(65_535, offset)), [Cause::OffsetBetweenEvents]);
    }
}

#[test]
fn all_events_of_the_longest_file_dropped() {
    let mut file = zeros(65_535, 65_528);
    file[8] = 12;
    assert_eq!(salvaged(&file).0, [0, 0, 0, 8, 0, 8, 0, 15, 0, 0, 0, 0, 0, 0, 0]);
    assert_eq!(salvaged(&file).1, lines([0, 8, 65_528, 0], [0, 8, 8, 15], 8_190));
    file[8] = 0;
    file[65_520] = 12;
    let new = [8_189, 8, 65_520, 65_527];
    assert_eq!(salvaged(&file).1, lines([0, 8, 65_528, 0], new, 1));
}

#[test]
fn header_numbers_that_lie() {
    for [count, first, total] in
        [[0, 8, 26], [1, 8, 26], [3, 8, 26], [2, 0, 26], [2, 16, 26], [2, 8, 0], [2, 8, 27], [0xFFFF; 3]]
    {
        let numbers = [count, first, 24, total];
        let file = damaged(numbers, &[DEMOUNT, WRITE], &[1, 2]);
        let new = damaged([2, 8, 24, 26], &[DEMOUNT, WRITE], &[1, 2]);
        assert_eq!(salvaged(&file), (new, lines(numbers, [2, 8, 24, 26], 0)));
    }
}

#[test]
fn header_numbers_that_are_the_new_ones() {
    // the page offset alone is reported changed
    let file = damaged([1, 8, 24, 18], &[DEMOUNT, KIND_12], &[1, 2]);
    assert_eq!(salvaged(&file).1, lines([1, 8, 24, 18], [1, 8, 16, 18], 1));
}

#[test]
fn wrong_events() {
    let sound = [DEMOUNT, WRITE, DEMOUNT, WRITE];
    for at in 0..4 {
        let mut events = sound;
        events[at] = KIND_12;
        let file = damaged([4, 8, 40, 43], &events, &[1, 2, 3]);
        let (kept, end) = (at as u16, 8 + 8 * at as u16);
        let new = [kept, 8, end, end + 3];
        assert_eq!(
            salvaged(&file),
            (damaged(new, &sound[..at], &[1, 2, 3]), lines([4, 8, 40, 43], new, 4 - at))
        );
    }
}

#[test]
fn tail_cut_in_a_page() {
    // a page of 4 bytes, one of 3 after it, and a write: 8 + 3 * 8 + 7 = 39 bytes
    let events = [[2, 3, 0, 0x10, 0, 0, 0, 4], [2, 4, 0, 0x10, 0, 4, 0, 3], WRITE];
    let pages = [1, 2, 3, 4, 5, 6, 7];
    let whole = damaged([3, 8, 32, 39], &events, &pages);
    assert_eq!(salvaged(&whole), (whole.clone(), lines([3, 8, 32, 39], [3, 8, 32, 39], 0)));
    for left in 0..7 {
        let kept = usize::from(left >= 4);
        let end = 8 + 8 * kept as u16;
        let new = [kept as u16, 8, end, end + left as u16];
        let expected = damaged(new, &events[..kept], &pages[..left]);
        assert_eq!(
            salvaged(&whole[..32 + left]),
            (expected, lines([3, 8, 32, 39], new, 3 - kept)),
            "{left} page bytes left"
        );
    }
    for length in 8..32 {
        assert_eq!(refused(&whole[..length]), [Cause::OffsetPastFile]);
    }
}

#[test]
fn page_bounds() {
    // 10 page bytes; where a page ends past them, the bytes of dropped events, the total and 16 bits don't help
    for (offset, length, is_kept) in [
        (0, 10, true),
        (0, 9, true),
        (9, 1, true),
        (10, 0, true),
        (0, 11, false),
        (10, 1, false),
        (11, 0, false),
        (0, 18, false),
        (0xFFFF, 1, false),
        (0xFFFF, 0xFFFF, false),
    ] {
        for total in [0, 34, 42, 0xFFFF] {
            let mut bytes = file(&[event(5, 0, 0), out(3, offset, length)], &[7; 10]);
            bytes[6..8].copy_from_slice(&u16::to_be_bytes(total));
            let kept = salvage(&bytes).expect("the file is salvaged").recording.events.len();
            assert_eq!(kept, if is_kept { 2 } else { 1 }, "{length} bytes at {offset}, total {total}");
        }
    }
}

#[test]
fn every_rule_of_an_event_ends_the_run() {
    // a field of each kind that is wrong: byte and value; the page bytes are 300
    let wrong: [(u8, &[(usize, u8)]); 12] = [
        (0, &[(1, 1), (2, 1), (3, 1), (4, 1), (5, 1), (6, 1), (7, 1)]),
        (1, &[(4, 1), (5, 1), (6, 1), (7, 1)]),
        (2, &[(4, 2), (6, 2)]),
        (3, &[(2, 1), (3, 2), (4, 1), (5, 1), (6, 1), (7, 1)]),
        (4, &[(1, 1), (2, 1), (3, 1), (4, 1), (5, 1), (6, 1), (7, 1)]),
        (5, &[(1, 255), (2, 255), (3, 255), (4, 255), (5, 255), (6, 255), (7, 255)]),
        (6, &[(2, 1), (3, 1), (4, 1), (5, 1), (6, 1), (7, 1)]),
        (7, &[(1, 1), (2, 1), (3, 1), (4, 1), (5, 1), (6, 1), (7, 1)]),
        (8, &[(2, 1), (3, 1), (4, 1), (5, 1), (6, 1), (7, 1)]),
        (9, &[(1, 1), (2, 1), (3, 1), (4, 1), (5, 1), (6, 1), (7, 1)]),
        (10, &[(1, 1), (4, 1), (5, 1), (6, 1), (7, 1)]),
        (11, &[(4, 1), (5, 1), (6, 1), (7, 1)]),
    ];
    for (kind, changes) in wrong {
        let sound = [kind, 0, 0, 0, 0, 0, 0, 0];
        let kept = |event: [u8; 8]| {
            let file = damaged([3, 8, 32, 332], &[sound, event, sound], &[0; 300]);
            salvage(&file).expect("the file is salvaged").recording.events.len()
        };
        assert_eq!(kept(sound), 3);
        for &(at, value) in changes {
            let mut event = sound;
            event[at] = value;
            assert_eq!(kept(event), 1, "kind {kind}, byte {at}");
        }
    }
    for kind in 12..=255 {
        let file = damaged([1, 8, 16, 16], &[[kind, 0, 0, 0, 0, 0, 0, 0]], &[]);
        assert_eq!(salvaged(&file).1, lines([1, 8, 16, 16], [0, 8, 8, 8], 1));
    }
}

#[test]
fn numbers_left_to_the_calls_are_kept() {
    let events =
        [event(3, 255, 1), event(10, 0, 9), event(1, 16, 0xFFFF), event(11, 3, 0x0905), event(2, 77, 7)];
    let bytes = file(&events, &[]);
    assert_eq!(salvaged(&bytes).0, bytes);
    assert_eq!(Header::read(&bytes).map(|header| header.event_count), Some(5));
}
