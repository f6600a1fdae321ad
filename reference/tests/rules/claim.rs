//! 02, request 11: the claim of a recorded session, to the character, and what is refused.

use crate::given::k;
use crate::recording::{event, file, out};
use crate::sent::{not_supported, pages, sent, supported, Page};
use reference::claim::second_account::{claim, Refusal};
use reference::claim::{row_of, Column, Rate};
use reference::recording::Event;

/// The request's file of request 3.
const REQUESTS: [u8; 16] = [0, 1, 0, 8, 0, 16, 0, 16, 5, 0, 0, 0, 0, 0, 0, 0];

/// The text of a file at a rate that is taken.
fn text(file: &[u8], rate: u64) -> String {
    claim(file, Rate::Pence(rate)).expect("the claim is made").text()
}

/// The 18 lines: these rows' numbers, zeros in the others, and the last line.
fn lines(rows: &[(usize, &str)], last: &str) -> String {
    let numbers = |row| rows.iter().find(|(told, _)| *told == row).map_or("0 0 0 0", |(_, numbers)| numbers);
    let rows: String = (0..=16).map(|row| format!("{row} {}\n", numbers(row))).collect();
    format!("{rows}{last}\n")
}

/// The text of some events over those pages.
fn claimed(events: &[Event], rate: u64) -> String {
    text(&file(events, &pages().concat()), rate)
}

#[test]
fn the_requests_example() {
    let expected = "0 0 0 0 0\n1 0 0 0 0\n2 0 0 0 0\n3 0 0 0 0\n4 0 0 0 0\n5 0 0 0 0\n6 0 0 0 0\n7 0 0 0 0\n\
                    8 0 0 0 0\n9 0 0 0 0\n10 0 0 0 0\n11 0 0 0 0\n12 0 0 0 0\n13 0 0 0 0\n14 0 0 0 0\n\
                    15 0 0 0 0\n16 0 0 0 0\ntotal 0 0 0 0 amount 0\n";
    assert_eq!(text(&REQUESTS, 250), expected);
    assert_eq!(expected.lines().count(), 18);
    assert_eq!(lines(&[], "total 0 0 0 0 amount 0"), expected);
    // no events, and page bytes without any
    assert_eq!(text(&[0, 0, 0, 8, 0, 8, 0, 8], 250), expected);
    assert_eq!(text(&[0, 0, 0, 8, 0, 8, 0, 9, 77], 1_000_000), expected);
}

#[test]
fn encrypted_external_clear_and_refused() {
    // P4: encrypted with support, 12 without
    let encrypted = [sent(3, Page::UnlockedK), supported(3), supported(3), supported(3), not_supported(3)];
    assert_eq!(claimed(&encrypted, 250), lines(&[(3, "3 0 0 1")], "total 3 0 0 1 amount 750"));
    // EXTERNAL and DISABLE don't ask for support
    let external = [sent(4, Page::External), supported(4), not_supported(4)];
    assert_eq!(claimed(&external, 250), lines(&[(4, "0 2 0 0")], "total 0 2 0 0 amount 0"));
    let clear = [supported(5), not_supported(5), not_supported(5)];
    assert_eq!(claimed(&clear, 250), lines(&[(5, "0 0 3 0")], "total 0 0 3 0 amount 0"));
    let in_turn = [
        sent(0, Page::UnlockedK),
        supported(0),
        sent(0, Page::External),
        supported(0),
        not_supported(0),
        sent(0, Page::Public),
        supported(0),
        supported(0),
        supported(0),
        sent(0, Page::UnlockedK),
        not_supported(0),
        not_supported(0),
        not_supported(0),
        not_supported(0),
    ];
    assert_eq!(claimed(&in_turn, 1), lines(&[(0, "1 2 3 4")], "total 1 2 3 4 amount 1"));
}

#[test]
fn each_in_its_own_nexuss_row() {
    // nexus 6's ALL set encrypts for PUBLIC nexuses; nexus 2 has a set of its own
    let events = [
        sent(6, Page::AllK),
        sent(2, Page::External),
        supported(0),
        supported(15),
        supported(15),
        supported(2),
        not_supported(6),
        supported(9),
    ];
    let rows = [(0, "1 0 0 0"), (2, "0 1 0 0"), (6, "0 0 0 1"), (9, "1 0 0 0"), (15, "2 0 0 0")];
    assert_eq!(claimed(&events, 1000), lines(&rows, "total 4 1 0 1 amount 4000"));
    // an ALL set with EXTERNAL, and the sender PUBLIC again: its set stays
    let events = [sent(8, Page::AllExternal), sent(8, Page::Public), not_supported(8), supported(1)];
    let rows = [(1, "0 1 0 0"), (8, "0 1 0 0")];
    assert_eq!(claimed(&events, 1000), lines(&rows, "total 0 2 0 0 amount 0"));
}

#[test]
fn a_nexus_above_15_has_the_seventeenth_row() {
    let events = [
        sent(0, Page::AllK),
        supported(16),
        supported(17),
        not_supported(255),
        supported(31),
        supported(15),
        supported(0),
    ];
    let rows = [(0, "1 0 0 0"), (15, "1 0 0 0"), (16, "0 0 0 4")];
    assert_eq!(claimed(&events, 250), lines(&rows, "total 2 0 0 4 amount 500"));
    for nexus in 0..=255 {
        assert_eq!(row_of(nexus), if nexus < 16 { usize::from(nexus) } else { 16 });
        let claim = claim(&file(&[supported(nexus)], &[]), Rate::Pence(1)).expect("the claim is made");
        let column = if nexus < 16 { Column::Clear } else { Column::Refused };
        assert_eq!((claim.rows[row_of(nexus)][column], claim.totals.writes()), (1, 1));
    }
}

#[test]
fn refused_by_each_answer() {
    // P8, with 3 for nexus 5 and then 11: nexus 6's own writes are encrypted
    let p8 = [sent(5, Page::LockedPublic), sent(6, Page::AllK), supported(5), supported(5), supported(6)];
    let rows = [(5, "0 0 0 2"), (6, "1 0 0 0")];
    assert_eq!(claimed(&p8, 250), lines(&rows, "total 1 0 0 2 amount 250"));
    // P7: 4, then 11
    let p7 = [sent(3, Page::K), supported(3), event(5, 0, 0), supported(3), supported(3), not_supported(3)];
    assert_eq!(claimed(&p7, 250), lines(&[(3, "1 0 0 3")], "total 1 0 0 3 amount 250"));
    // 12, and 2
    let not_usable = [sent(3, Page::K), not_supported(3), not_supported(3), supported(200)];
    let rows = [(3, "0 0 0 2"), (16, "0 0 0 1")];
    assert_eq!(claimed(&not_usable, 250), lines(&rows, "total 0 0 0 3 amount 0"));
    // both flags pending: 3 and 4 once each, then the write passes
    let both =
        [event(1, 5, 0x0020), sent(6, Page::AllK), event(5, 0, 0), supported(5), supported(5), supported(5)];
    assert_eq!(claimed(&both, 250), lines(&[(5, "0 0 1 2")], "total 0 0 1 2 amount 0"));
}

#[test]
fn other_events_are_not_counted() {
    // a read that is refused, IN of no such page, a page that is cut, a place above 4
    let events = [
        sent(3, Page::K),
        event(11, 3, 0x0000),
        event(11, 3, 0x0100),
        event(11, 16, 0x0100),
        event(1, 3, 0xFFFF),
        out(3, 0, 51),
        out(17, 0, 52),
        event(10, 0, 5),
        event(8, 200, 0),
        event(6, 200, 0),
        event(4, 0, 0),
        event(7, 0, 0),
        event(9, 0, 0),
    ];
    assert_eq!(claimed(&events, 250), lines(&[], "total 0 0 0 0 amount 0"));
    let with_write = [&events[..1], &[supported(3)], &events[1..]].concat();
    assert_eq!(claimed(&with_write, 250), lines(&[(3, "1 0 0 0")], "total 1 0 0 0 amount 250"));
}

#[test]
fn writes_around_power_on_all_count() {
    // encrypted before it; after it the set and the lock are gone
    let events = [
        sent(3, Page::K),
        supported(3),
        not_supported(3),
        event(0, 0, 0),
        not_supported(3),
        sent(3, Page::External),
        supported(3),
        event(0, 0, 0),
        event(0, 0, 0),
        sent(3, Page::K),
        supported(3),
        supported(3),
    ];
    assert_eq!(claimed(&events, 250), lines(&[(3, "3 1 1 1")], "total 3 1 1 1 amount 750"));
    // two sessions in one come to both claims added up
    let [first, second] = [&events[..3], &events[9..]].map(|events| claimed(events, 250));
    assert_eq!(first, lines(&[(3, "1 0 0 1")], "total 1 0 0 1 amount 250"));
    assert_eq!(second, lines(&[(3, "2 0 0 0")], "total 2 0 0 0 amount 500"));
    let both = [&events[..3], &[event(0, 0, 0)], &events[9..]].concat();
    assert_eq!(claimed(&both, 250), lines(&[(3, "3 0 0 1")], "total 3 0 0 1 amount 750"));
}

#[test]
fn the_rows_sum_is_the_number_of_write_events() {
    let mut events = vec![sent(2, Page::AllK), sent(4, Page::K), sent(7, Page::LockedPublic)];
    for turn in 0..=255 {
        events.extend([supported(turn), event(11, turn, 0), not_supported(turn % 20)]);
        if turn % 50 == 49 {
            events.extend([event(5, 0, 0), sent(turn % 16, Page::External), event(4, 0, 0)]);
        }
    }
    let file = file(&events, &pages().concat());
    // kind 3 in the first byte of each event, counted from the file's bytes
    let writes = file[8..8 + 8 * events.len()].chunks(8).filter(|event| event[0] == 3).count();
    let claim = claim(&file, Rate::Pence(7)).expect("the claim is made");
    assert_eq!(writes, 512);
    assert_eq!(claim.totals.writes(), 512);
    assert_eq!(claim.rows.iter().map(|row| row.writes()).sum::<u64>(), 512);
    for column in Column::EVERY {
        let sum: u64 = claim.rows.iter().map(|row| row[column]).sum();
        assert_eq!(claim.totals[column], sum);
        assert!(sum > 0);
    }
    assert_eq!(claim.rows[16][Column::Refused], claim.rows[16].writes());
    assert_eq!(claim.amount, 7 * claim.totals[Column::Encrypted]);
}

#[test]
fn amounts() {
    let encrypted = |count: usize| [vec![sent(0, Page::AllK)], vec![supported(1); count]].concat();
    for (count, rate, amount) in [
        (1, 0, "0"),
        (1, 1, "1"),
        (1, 1_000_000, "1000000"),
        (10, 999_999, "9999990"),
        (4294, 1_000_000, "4294000000"),
        (4295, 1_000_000, "4295000000"),
        // 2^32 - 1
        (4369, 983_055, "4294967295"),
        (8000, 1_000_000, "8000000000"),
    ] {
        let row = format!("{count} 0 0 0");
        let expected = lines(&[(1, &row)], &format!("total {count} 0 0 0 amount {amount}"));
        assert_eq!(claimed(&encrypted(count), rate), expected);
    }
}

#[test]
fn the_most_writes() {
    // 8 + 8,190 * 8 = 65,528: no page, so that all are clear
    let clear = file(&[supported(15); 8190], &[]);
    assert_eq!(text(&clear, 1_000_000), lines(&[(15, "0 0 8190 0")], "total 0 0 8190 0 amount 0"));
    // 8 + 8,184 * 8 + 52 = 65,532: K, and 8,183 writes
    let events = [vec![sent(9, Page::K)], vec![supported(9); 8183]].concat();
    let expected = lines(&[(9, "8183 0 0 0")], "total 8183 0 0 0 amount 8183000000");
    assert_eq!(text(&file(&events, &k()), 1_000_000), expected);
    assert_eq!(claim(&file(&[supported(15); 8191], &[]), Rate::Pence(1)), Err(Refusal::WrongRecording));
}

#[test]
fn numbers_of_any_digits_have_no_filling() {
    let events =
        [vec![supported(1); 9], vec![supported(2); 10], vec![supported(3); 100], vec![supported(200); 1000]]
            .concat();
    let rows = [(1, "0 0 9 0"), (2, "0 0 10 0"), (3, "0 0 100 0"), (16, "0 0 0 1000")];
    assert_eq!(claimed(&events, 5), lines(&rows, "total 0 0 119 1000 amount 0"));
}

#[test]
fn a_higher_rate_is_refused_with_23_after_22() {
    assert_eq!(Refusal::WrongRecording.number(), 22);
    assert_eq!(Refusal::RateAboveLimit.number(), 23);
    let wrong = &REQUESTS[..15];
    assert_eq!(claim(&REQUESTS, Rate::AboveLimit), Err(Refusal::RateAboveLimit));
    assert_eq!(claim(wrong, Rate::AboveLimit), Err(Refusal::WrongRecording));
    assert_eq!(claim(wrong, Rate::Pence(250)), Err(Refusal::WrongRecording));
    // one wrong event after writes: nothing of them is claimed
    let cut = file(&[sent(3, Page::K), supported(3), event(3, 3, 2)], &pages().concat());
    assert_eq!(claim(&cut, Rate::Pence(250)), Err(Refusal::WrongRecording));
}

#[test]
fn rates() {
    for (text, rate) in [("0", 0), ("1", 1), ("250", 250), ("999999", 999_999), ("1000000", 1_000_000)] {
        assert_eq!(Rate::read(text), Some(Rate::Pence(rate)));
        assert_eq!(Rate::read(&format!("00{text}")), Some(Rate::Pence(rate)));
        assert_eq!(Rate::read(&format!("{}{text}", "0".repeat(1000))), Some(Rate::Pence(rate)));
    }
    assert_eq!(Rate::read("007"), Some(Rate::Pence(7)));
    for above in ["1000001", "1000010", "9999999", "4294967296", "18446744073709551616"] {
        assert_eq!(Rate::read(above), Some(Rate::AboveLimit));
        assert_eq!(Rate::read(&format!("00{above}")), Some(Rate::AboveLimit));
    }
    assert_eq!(Rate::read(&"9".repeat(1000)), Some(Rate::AboveLimit));
    for no_number in ["", "+1", "-1", "-", " 1", "1 ", "1 0", "x", "1x", "0x1", "1.0", "1,000", "1\n", "٣"] {
        assert_eq!(Rate::read(no_number), None);
    }
    assert_eq!(Rate::read("1000001x"), None);
}

/// A recording of examples/, by its name.
fn example(name: &str) -> Vec<u8> {
    let folder = concat!(env!("CARGO_MANIFEST_DIR"), "/../examples");
    std::fs::read(format!("{folder}/{name}.rec")).expect("the recording can be read")
}

#[test]
fn examples() {
    // counted by hand from the comments of the texts
    let rows = [(0, "9 0 1 11"), (1, "6 0 1 1"), (2, "2 2 1 1"), (3, "3 0 1 2")];
    assert_eq!(text(&example("month"), 250), lines(&rows, "total 20 2 4 15 amount 5000"));
    let rows = [(2, "1 0 0 0"), (3, "1 0 2 1")];
    assert_eq!(text(&example("restore"), 250), lines(&rows, "total 2 0 2 1 amount 500"));
}
