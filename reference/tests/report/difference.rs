//! Lines that differ from the drive's replies, or from themselves, have no page.

use crate::recorded::recorded;
use crate::running::{folder, names};
use crate::{claim_report, lines, with_arguments, MONTH, MONTH_ROWS, SHA256};
use reference::claim::{Column, Counts};
use std::fs;
use std::path::Path;

/// The lines are refused with such words, and an old page stays.
fn assert_refused(folder: &Path, file: &str, lines: &str, words: &str) {
    fs::write(folder.join("page.html"), "before").expect("a file can be written");
    let before = names(folder);
    let (status, output, error) = claim_report(folder, "250", file, "page.html", lines);
    assert_eq!((status, &*output), (1, ""), "{lines}");
    assert!(error.contains(words), "{error} for {words}");
    assert_eq!(fs::read(folder.join("page.html")).expect("it is there"), b"before");
    assert_eq!(names(folder), before);
}

#[test]
fn each_number_is_held_against_the_replies() {
    let folder = folder("report numbers");
    for row in 0..17 {
        for column in Column::EVERY {
            let mut rows = MONTH_ROWS.to_vec();
            match rows.iter_mut().find(|(other, _)| *other == row) {
                Some((_, counts)) => counts[column] += 1,
                None => rows.push((row, Counts(Column::EVERY.map(|other| u64::from(other == column))))),
            }
            assert_refused(
                &folder,
                MONTH,
                &lines(250, &rows),
                &format!(" for {}, row {row}, where ", column.name()),
            );
        }
    }
}

#[test]
fn writes_in_another_row_or_column_are_found() {
    let folder = folder("report exchanged");
    let [first, second, ..] = MONTH_ROWS;
    let rows = [(first.0, second.1), (second.0, first.1), MONTH_ROWS[2], MONTH_ROWS[3]];
    let words = "the claim says 6 for encrypted, row 0, where the drive's replies give 9\n";
    assert_refused(&folder, MONTH, &lines(250, &rows), words);
    let rows = [(0, Counts([9, 1, 0, 11])), MONTH_ROWS[1], MONTH_ROWS[2], MONTH_ROWS[3]];
    let words = "the claim says 1 for external, row 0, where the drive's replies give 0\n\
                 the claim says 0 for clear, row 0, where the drive's replies give 1\n";
    assert_refused(&folder, MONTH, &lines(250, &rows), words);
}

#[test]
fn totals_amount_and_count_are_held() {
    let folder = folder("report totals");
    let right = lines(250, &MONTH_ROWS);
    let last = "total 20 2 4 15 amount 5000\n";
    assert!(right.ends_with(last));
    for (wrong, words) in [
        ("total 21 2 4 15 amount 5250\n", "21 for encrypted, total, where its rows add up to 20\n"),
        ("total 20 3 4 15 amount 5000\n", "3 for external, total, where its rows add up to 2\n"),
        ("total 20 2 3 15 amount 5000\n", "3 for clear, total, where its rows add up to 4\n"),
        ("total 20 2 4 14 amount 5000\n", "14 for refused, total, where its rows add up to 15\n"),
        (
            "total 20 2 4 15 amount 5001\n",
            "5001 for the amount, where its encrypted total times the rate is 5000\n",
        ),
        ("total 20 2 4 15 amount 4000\n", "4000 for the amount"),
    ] {
        assert_refused(&folder, MONTH, &right.replace(last, wrong), words);
    }
    let more = lines(250, &[MONTH_ROWS.to_vec(), vec![(16, Counts([1, 0, 0, 0]))]].concat());
    let words = "42 for all rows together, where the writes of the recording are 41\n";
    assert_refused(&folder, MONTH, &more, words);
    let words = "1 for writes of a nexus above 15 that aren't refused, where there are to be 0\n";
    assert_refused(&folder, MONTH, &more, words);
    assert_refused(&folder, MONTH, &lines(251, &MONTH_ROWS), "5020 for the amount");
}

#[test]
fn lines_have_their_form() {
    let folder = folder("report form");
    let right = lines(250, &MONTH_ROWS);
    let count = "the claim is not 18 lines";
    let cut = right.split_once('\n').expect("there are lines").1;
    for wrong in [
        "",
        "\n",
        cut,
        &right[..right.len() - 1],
        &format!("{right}\n"),
        &format!("{right}17 0 0 0 0\n"),
        &format!("{right}17 0 0 0 0"),
    ] {
        assert_refused(&folder, MONTH, wrong, count);
    }
    for (from, to) in [
        ("0 9 0 1 11\n", "0 9 0 1\n"),
        ("0 9 0 1 11\n", "0 9 0 1 11 0\n"),
        ("0 9 0 1 11\n", "0  9 0 1 11\n"),
        ("0 9 0 1 11\n", "0 9 0 1 11 \n"),
        ("0 9 0 1 11\n", "0 09 0 1 11\n"),
        ("0 9 0 1 11\n", "0 +9 0 1 11\n"),
        ("0 9 0 1 11\n", "0 nine 0 1 11\n"),
        ("0 9 0 1 11\n", "0 9 0 1 99999999999999999999\n"),
        ("0 9 0 1 11\n", "0 9 0 1 11\r\n"),
        ("1 6 0 1 1\n", "2 6 0 1 1\n"),
        ("total", "sum"),
        ("amount", "pence"),
        (" amount 5000", ""),
        ("amount 5000", "amount -5000"),
    ] {
        assert_refused(&folder, MONTH, &right.replacen(from, to, 1), "the claim's line `");
    }
}

#[test]
fn a_recording_that_is_not_sound_is_refused_with_22() {
    let folder = folder("report unsound");
    fs::write(folder.join("f"), [0, 1, 0, 8, 0, 16, 0, 16, 12, 0, 0, 0, 0, 0, 0, 0]).expect("a file");
    assert_refused(&folder, "f", &lines(250, &[]), "22 f: event 0, kind: 12, but the kinds are 0 to 11\n");
}

#[test]
fn a_drive_that_gives_no_replies_is_told() {
    let folder = folder("report drive");
    fs::write(folder.join("f"), recorded("write nexus 0 supported").bytes()).expect("a file can be written");
    let lines = lines(250, &[(0, Counts([0, 0, 1, 0]))]);
    let drive = |reply: &str| format!("printf '{reply}'; cat >/dev/null");
    let right = ["250", SHA256, "f", "page.html", "sh", "-c", &drive(r"\0\0\0\0\0\3\0\0\0")];
    assert_eq!(with_arguments(&folder, &right, &lines), (0, String::new(), String::new()));
    fs::remove_file(folder.join("page.html")).expect("the page was there");
    for (script, words) in [
        ("exit", "event 0: the drive program "),
        ("head -c 8 >/dev/null; printf '\\0\\0\\0'", "event 0: the drive program gives no whole reply"),
        (&*drive(r"\0\0\0\0\0\3\3\0\0"), "event 0: the drive's reply is not one to a write"),
        (&*drive(r"\0\0\0\0\0\2\2\1"), "event 0: the drive's reply is not one to a write"),
        (&*drive(r"\377\0\0\0\0\0"), "event 0: the drive's reply is not one to a write"),
        (&*drive(r"\0\0\0\0\0\3\2\1\1"), "0 for encrypted, row 0, where the drive's replies give 1\n"),
        (&*drive(r"\14\7\164\7\0\0"), "0 for refused, row 0, where the drive's replies give 1\n"),
    ] {
        let arguments = ["250", SHA256, "f", "page.html", "sh", "-c", script];
        let (status, output, error) = with_arguments(&folder, &arguments, &lines);
        assert!(status == 1 && output.is_empty() && error.contains(words), "{script}: {status} {error}");
    }
    let arguments = ["250", SHA256, "f", "page.html", "/no/such/program"];
    let (status, _, error) = with_arguments(&folder, &arguments, &lines);
    assert!(status == 1 && error.starts_with("/no/such/program can't be started: "), "{error}");
    assert_eq!(names(&folder), ["f"]);
}
