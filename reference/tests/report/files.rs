//! The program's arguments and the files that it writes.

use crate::running::{folder, folder_outside, names, outcome, put_fifo, run, written_through_a_link};
use crate::{claim_report, lines, with_arguments, DRIVE, MONTH, MONTH_ROWS, SHA256};
use std::fs;
use std::os::unix::fs::symlink;

#[test]
fn bad_arguments_end_with_status_2() {
    let folder = folder("report arguments");
    let long = SHA256.to_string() + "00";
    let wrong: [&[&str]; 14] = [
        &[],
        &["250"],
        &["250", SHA256, MONTH, "page.html"],
        &["", SHA256, MONTH, "page.html", DRIVE],
        &["-1", SHA256, MONTH, "page.html", DRIVE],
        &["+1", SHA256, MONTH, "page.html", DRIVE],
        &["2.5", SHA256, MONTH, "page.html", DRIVE],
        &["1000001", SHA256, MONTH, "page.html", DRIVE],
        &["99999999999", SHA256, MONTH, "page.html", DRIVE],
        &["250", "0011", MONTH, "page.html", DRIVE],
        &["250", &long, MONTH, "page.html", DRIVE],
        &["250", &SHA256.replace('0', "g"), MONTH, "page.html", DRIVE],
        &["250", SHA256, "-", "page.html", DRIVE],
        &["250", SHA256, MONTH, "-page.html", DRIVE],
    ];
    for arguments in wrong {
        let (status, output, error) = with_arguments(&folder, arguments, &lines(250, &MONTH_ROWS));
        assert_eq!((status, &*output), (2, ""), "{arguments:?}");
        assert!(error.starts_with("usage: claim_report"), "{arguments:?}: {error}");
    }
    for option in ["-h", "--help"] {
        let (status, output, error) = with_arguments(&folder, &[option], "");
        assert!(status == 0 && output.starts_with("usage: claim_report") && error.is_empty());
    }
    assert!(names(&folder).is_empty());
}

#[test]
fn files_that_cant_be_used_end_with_status_2() {
    let folder = folder_outside("report files");
    fs::copy(MONTH, folder.join("f")).expect("a copy");
    fs::hard_link(folder.join("f"), folder.join("same")).expect("a link can be made");
    symlink("f", folder.join("link")).expect("a link can be made");
    fs::create_dir(folder.join("d")).expect("a folder can be made");
    put_fifo(&folder, "fifo");
    let lines = lines(250, &MONTH_ROWS);
    for (file, out, words) in [
        ("f", "f", "f and f are the same file"),
        ("f", "./f", "are the same file"),
        ("f", "same", "are the same file"),
        ("f", "link", "are the same file"),
        ("link", "f", "are the same file"),
        ("f", "d", "d is there and is no file"),
        ("f", "fifo", "fifo is there and is no file"),
        ("f", "none/page.html", "none/page.html can't be written: "),
        ("f", "f/page.html", "can't be written: "),
        ("f", "", "can't be written: "),
        ("none", "page.html", "none can't be read: "),
        ("d", "page.html", "d can't be read: "),
    ] {
        let (status, output, error) = claim_report(&folder, "250", file, out, &lines);
        assert!(status == 2 && output.is_empty() && error.contains(words), "{file} {out}: {status} {error}");
    }
    assert_eq!(names(&folder), ["d", "f", "fifo", "link", "same"]);
    assert_eq!(fs::read(folder.join("f")).expect("it is there"), fs::read(MONTH).expect("it is there"));
    fs::remove_dir_all(&folder).expect("the folder can be taken away");
}

#[test]
fn a_page_behind_a_link_is_replaced_and_keeps_its_permissions() {
    let length = written_through_a_link("report link", |folder, link| {
        assert_eq!(claim_report(folder, "250", MONTH, link, &lines(250, &MONTH_ROWS)).0, 0);
    });
    assert!(length > 5000);
}

/// The shell lets files grow up to so many blocks; a page is longer, as on a disk that is full.
#[test]
fn a_full_disk_leaves_no_half_page() {
    let folder = folder("report full");
    let script = "trap '' XFSZ; ulimit -f 4; exec \"$@\"";
    let report = env!("CARGO_BIN_EXE_claim_report");
    let lines = lines(250, &MONTH_ROWS);
    let page = |out: &str| {
        let arguments = ["-c", script, "sh", report, "250", SHA256, MONTH, out, DRIVE];
        outcome(&run("sh", &folder, &arguments, lines.as_bytes()))
    };
    fs::write(folder.join("old.html"), "before").expect("a file can be written");
    for out in ["new.html", "old.html"] {
        let (status, output, error) = page(out);
        assert_eq!((status, &*output), (2, ""));
        assert!(error.starts_with(&format!("{out} can't be written: ")), "{error}");
    }
    assert_eq!(fs::read(folder.join("old.html")).expect("it is there"), b"before");
    assert_eq!(names(&folder), ["old.html"]);
}
