//! The programs `record` and `words`, with their statuses.

use crate::running::{folder, names, outcome, put_fifo, run, written_through_a_link};
use std::fs;
use std::path::Path;

const RECORD: &str = env!("CARGO_BIN_EXE_record");
const WORDS: &str = env!("CARGO_BIN_EXE_words");
/// A drive that can't be started, so that it is seen where it is.
const NO_DRIVE: &str = "/no/such/program";

fn record(folder: &Path, arguments: &[&str], input: &[u8]) -> (i32, String, String) {
    outcome(&run(RECORD, folder, arguments, input))
}

fn words(folder: &Path, arguments: &[&str], answers: &[u8]) -> (i32, String, String) {
    outcome(&run(WORDS, folder, arguments, answers))
}

#[test]
fn a_text_becomes_a_file_and_a_file_a_text() {
    let folder = folder("both");
    fs::write(folder.join("a b.txt"), "Demount # x\n").expect("a text can be written");
    assert_eq!(record(&folder, &["a b.txt", "-x"], b"").0, 2);
    assert_eq!(record(&folder, &["--", "a b.txt", "-x"], b""), (0, String::new(), String::new()));
    let file = [0x00, 0x01, 0x00, 0x08, 0x00, 0x10, 0x00, 0x10, 0x05, 0, 0, 0, 0, 0, 0, 0];
    assert_eq!(fs::read(folder.join("-x")).expect("the file is there"), file);
    assert_eq!(record(&folder, &["--show", "--", "-x"], b""), (0, "demount\n".to_string(), String::new()));
    assert_eq!(record(&folder, &["--show", "-"], &file), (0, "demount\n".to_string(), String::new()));
    assert_eq!(record(&folder, &["-", "y"], b"demount"), (0, String::new(), String::new()));
    assert_eq!(fs::read(folder.join("y")).expect("the file is there"), file);
    assert_eq!(names(&folder), ["-x", "a b.txt", "y"]);
}

#[test]
fn a_wrong_script_changes_no_file() {
    let folder = folder("wrong");
    fs::write(folder.join("s"), "demount\nmount\n").expect("a text can be written");
    let (status, output, error) = record(&folder, &["s", "f"], b"");
    assert_eq!((status, output.as_str()), (1, ""));
    assert!(error.starts_with("s:2: `mount` stands where a call"), "{error}");
    assert_eq!(names(&folder), ["s"]);
    fs::write(folder.join("f"), "before").expect("a file can be written");
    let (status, _, error) = record(&folder, &["-", "f"], b"\xFF # \xFF\n");
    assert!(status == 1 && error.starts_with("-:1: "), "{error}");
    assert_eq!(fs::read(folder.join("f")).expect("the file is there"), b"before");
    assert_eq!(record(&folder, &["-", "f"], b"# \xFF is no letter\n").0, 0);
    assert_eq!(names(&folder), ["f", "s"]);
}

#[test]
fn a_file_that_is_not_sound_is_refused_with_22() {
    let folder = folder("unsound");
    fs::write(folder.join("f"), [0, 1, 0, 8, 0, 16, 0, 16, 12, 0, 0, 0, 0, 0, 0, 0]).expect("a file");
    let (status, output, error) = record(&folder, &["--show", "f"], b"");
    assert_eq!((status, output.as_str()), (1, ""));
    assert_eq!(error, "22 f: event 0, kind: 12, but the kinds are 0 to 11\n");
    let (status, output, error) = words(&folder, &["f", "none", NO_DRIVE], b"");
    assert!(status == 1 && output.is_empty() && error.starts_with("22 "), "{error}");
}

#[test]
fn bad_arguments_and_files_end_with_status_2() {
    let folder = folder("arguments");
    fs::write(folder.join("s"), "demount\n").expect("a text can be written");
    fs::hard_link(folder.join("s"), folder.join("same")).expect("a link can be made");
    fs::create_dir(folder.join("d")).expect("a folder can be made");
    put_fifo(&folder, "fifo");
    let wrong: [&[&str]; 17] = [
        &[],
        &["s"],
        &["s", "f", "g"],
        &["--show"],
        &["--show", "s", "f"],
        &["--shown", "s"],
        &["-x", "s", "f"],
        &["s", "-"],
        &["none", "f"],
        &["d", "f"],
        &["s", "d"],
        &["s", "none/f"],
        &["s", "fifo"],
        &["s", "s"],
        &["s", "./s"],
        &["s", "same"],
        &["--show", "none"],
    ];
    for arguments in wrong {
        let (status, output, error) = record(&folder, arguments, b"");
        assert!(status == 2 && output.is_empty() && !error.is_empty(), "{arguments:?}: {status} {error}");
    }
    for arguments in [&["-x", "s"] as &[&str], &[]] {
        assert!(record(&folder, arguments, b"").2.contains("usage: record SCRIPT FILE"));
    }
    assert_eq!(names(&folder), ["d", "fifo", "s", "same"]);
    assert_eq!(fs::read(folder.join("s")).expect("the text is there"), b"demount\n");
    for option in ["-h", "--help"] {
        let (status, output, error) = record(&folder, &[option], b"");
        assert!(status == 0 && output.starts_with("usage: record") && error.is_empty());
    }
}

#[test]
fn a_file_behind_a_link_is_replaced_and_keeps_its_permissions() {
    let length = written_through_a_link("link", |folder, link| {
        assert_eq!(record(folder, &["-", link], b"demount").0, 0);
    });
    assert_eq!(length, 16);
}

#[test]
fn words_tells_each_call_with_its_answer() {
    let folder = folder("words");
    let text = "power-on\nwrite nexus 3 supported\nout nexus 3 page 0010h public\nwrite nexus 3 supported\n";
    assert_eq!(record(&folder, &["-", "f"], text.as_bytes()).0, 0);
    fs::write(folder.join("r"), "1 it is so\n").expect("the reasons can be written");
    let answers = [0, 0, 0, 0, 11, 7, 0x2A, 0x13, 2, 0, 0, 0, 0, 0, 0, 0];
    let (status, output, error) = words(&folder, &["f", "r", NO_DRIVE], &answers);
    let lines = "0  power-on -> 0 done\n\
                 1  write nexus 3 supported -> 11 locked, and the key instance has changed (7/2A/13): it is so\n\
                 2  out nexus 3 page 0010h public -> 2 nexus above 15\n\
                 3  write nexus 3 supported -> 0 done\n";
    assert_eq!((status, output.as_str(), error.as_str()), (0, lines, ""));
    for count in [0, 4, 8, 11, 15, 17, 20] {
        let (status, output, error) = words(&folder, &["f", "r", NO_DRIVE], &vec![0; count]);
        assert!(status == 1 && output.is_empty(), "{count}");
        assert_eq!(error, format!("{count} bytes of answers for 4 events, which have 4 each\n"));
    }
    let wrong: [&[&str]; 9] = [
        &[],
        &["f"],
        &["f", "r"],
        &["-x", "r", NO_DRIVE],
        &["f", "-x", NO_DRIVE],
        &["-", "r", NO_DRIVE],
        &["f", "-", NO_DRIVE],
        &["none", "r", NO_DRIVE],
        &["f", "none", NO_DRIVE],
    ];
    for arguments in wrong {
        let (status, output, error) = words(&folder, arguments, b"");
        assert!(status == 2 && output.is_empty() && !error.is_empty(), "{arguments:?}");
    }
    assert_eq!(run(WORDS, &folder, &["--help"], b"").status.code(), Some(0));
}

#[test]
fn words_takes_a_reason_for_each_refused_write_and_for_nothing_else() {
    let folder = folder("reasons");
    let text = "write nexus 3 supported\ndemount\nwrite nexus 3 supported\nwrite nexus 3 supported\n";
    assert_eq!(record(&folder, &["-", "f"], text.as_bytes()).0, 0);
    // the demount is refused too, as no drive would
    let answers = [[2, 0, 0, 0], [2, 0, 0, 0], [0, 0, 0, 0], [3, 6, 0x2A, 0x11]].concat();
    let told = |reasons: &str| {
        fs::write(folder.join("r"), reasons).expect("the reasons can be written");
        words(&folder, &["f", "r", NO_DRIVE], &answers)
    };
    let (status, output, error) = told("0 one\n3 two words: a b\n");
    assert_eq!((status, error.as_str()), (0, ""));
    let lines: Vec<&str> = output.lines().collect();
    assert_eq!(lines[0], "0  write nexus 3 supported -> 2 nexus above 15: one");
    assert!(lines[1].ends_with(" -> 2 nexus above 15") && lines[2].ends_with(" -> 0 done"));
    assert!(lines[3].ends_with("another nexus (6/2A/11): two words: a b"), "{output}");
    let wrong = [
        ("", "no reason stands for event 0, a write"),
        ("0 one\n", "no reason stands for event 3, a write"),
        ("3 two\n", "no reason stands for event 0, a write"),
        ("3 two\n0 one\n", "no reason stands for event 0, a write"),
        ("0 one\n0 one\n3 two\n", "a reason stands for event 0, where none is due"),
        ("0 one\n1 x\n3 two\n", "a reason stands for event 1, where none is due"),
        ("0 one\n2 x\n3 two\n", "a reason stands for event 2, where none is due"),
        ("0 one\n3 two\n3 two\n", "a reason stands for event 3, where none is due"),
        ("0 one\n3 two\n4 x\n", "a reason stands for event 4, where none is due"),
        ("0 one\n3 two\n\n", "the line `` of the reasons is not a position and a sentence"),
        ("0 one\n3\n", "the line `3` of the reasons is not"),
        ("0 one\n3 \n", "the line `3 ` of the reasons is not"),
        ("00 one\n3 two\n", "the line `00 one` of the reasons is not"),
        (" 0 one\n3 two\n", "the line ` 0 one` of the reasons is not"),
        ("one\n3 two\n", "the line `one` of the reasons is not"),
    ];
    for (reasons, line) in wrong {
        let (status, output, error) = told(reasons);
        assert!(status == 1 && output.is_empty() && error.starts_with(line), "{reasons:?}: {error}");
    }
}

/// A status page asked for, and a page with page code 0011h and nothing else wrong.
const TWO_CALLS: &str = "in nexus 3 page 0020h\nout nexus 3 page 0010h bytes 00 11 00 10 00*16\n";
const TWO_ANSWERS: [u8; 8] = [0, 0, 0, 0, 8, 5, 0x26, 0];

/// The two calls in words, with a drive that waits for each command, keeps it in a file, and gives these replies in turn.
fn two_calls(folder: &Path, replies: [&str; 2]) -> (i32, String, String) {
    assert_eq!(record(folder, &["-", "f"], TWO_CALLS.as_bytes()).0, 0);
    fs::write(folder.join("r"), "").expect("the reasons can be written");
    let [first, second] = replies.map(|reply| format!("printf '{reply}'"));
    let drive = format!("head -c 8 >sent; {first}; head -c 28 >>sent; {second}; cat >/dev/null");
    words(folder, &["f", "r", "sh", "-c", &drive], &TWO_ANSWERS)
}

#[test]
fn words_asks_the_drive_for_the_faulty_byte() {
    let folder = folder("words field");
    let (status, output, error) = two_calls(&folder, [r"\0\0\0\0\0\2\0\30", r"\10\5\46\0\0\2\0\0"]);
    let lines = "0  in nexus 3 page 0020h -> 0 done\n\
                 1  out nexus 3 page 0010h bytes 00 11 00 10 00*16 -> 8 field of the page wrong: byte 0, page code \
                 (5/26/00)\n";
    assert_eq!((status, output.as_str(), error.as_str()), (0, lines, ""));
    let page = [&[0x00, 0x11, 0x00, 0x10][..], &[0; 16]].concat();
    let sent = [&[1, 3, 0x00, 0x20, 0x20, 0, 0, 0][..], &[2, 3, 0x00, 0x10, 0x20, 0, 0, 20], &page].concat();
    assert_eq!(fs::read(folder.join("sent")).expect("the commands are there"), sent);
    let (status, output, _) = two_calls(&folder, [r"\0\0\0\0\0\2\0\30", r"\10\5\46\0\0\2\0\4"]);
    assert_eq!(
        (status, output.as_str()),
        (0, &*lines.replace("byte 0, page code", "byte 4, scope, reserved bits and lock"))
    );
}

#[test]
fn words_refuses_replies_that_are_not_the_answers() {
    let folder = folder("words other");
    let (status_page, wrong) = (r"\0\0\0\0\0\2\0\30", r"\10\5\46\0\0\2\0\0");
    let no_byte =
        |count| format!("event 1: the drive's answer 8 has {count} bytes of data, where the faulty byte");
    for (replies, line) in [
        (
            [status_page, r"\0\0\0\0\0\0"],
            "event 1: the drive answers 0 done, where replay gave 8 field of".to_string(),
        ),
        (
            [status_page, r"\10\5\46\1\0\2\0\0"],
            "event 1: the drive answers 8 field of the page wrong (5/26/01),".to_string(),
        ),
        (
            [r"\6\5\44\0\0\2\0\0", wrong],
            "event 0: the drive answers 6 page not supported (5/24/00), where".to_string(),
        ),
        ([status_page, r"\10\5\46\0\0\0"], no_byte(0)),
        ([status_page, r"\10\5\46\0\0\1\0"], no_byte(1)),
        ([status_page, r"\10\5\46\0\0\3\0\0\0"], no_byte(3)),
    ] {
        let (status, output, error) = two_calls(&folder, replies);
        assert!(status == 1 && output.is_empty() && error.starts_with(&line), "{replies:?}: {error}");
    }
}

#[test]
fn words_starts_the_drive_only_where_a_page_is_answered_8() {
    let folder = folder("words drive");
    assert_eq!(record(&folder, &["-", "f"], TWO_CALLS.as_bytes()).0, 0);
    fs::write(folder.join("r"), "").expect("the reasons can be written");
    let told = |drive: &[&str], answers: &[u8]| words(&folder, &[&["f", "r"], drive].concat(), answers);
    let (status, output, error) = told(&[NO_DRIVE], &[0, 0, 0, 0, 7, 5, 0x1A, 0]);
    assert_eq!((status, output.lines().count(), error.as_str()), (0, 2, ""));
    let (status, output, error) = told(&[NO_DRIVE], &TWO_ANSWERS);
    assert!(
        status == 1 && output.is_empty() && error.starts_with("/no/such/program can't be started: "),
        "{error}"
    );
    for (script, line) in [
        ("exit", "event 0: the drive program "),
        (
            r"head -c 8 >/dev/null; printf '\0\0\0\0\0\2\0\30'; head -c 28 >/dev/null",
            "event 1: the drive program gives",
        ),
    ] {
        let (status, output, error) = told(&["sh", "-c", script], &TWO_ANSWERS);
        assert!(status == 1 && output.is_empty() && error.starts_with(line), "{script}: {error}");
    }
}
