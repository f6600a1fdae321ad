//! Wrong scripts: what is said, and at which line.

use crate::{recorded, refused, shown};
use reference::recording::{LONGEST, MOST_EVENTS};

/// A line that is wrong, and what is said of it.
const WRONG: [(&str, &str); 61] = [
    ("mount", "`mount` stands where a call (power-on, in, out, "),
    ("power", "`power` stands where a call"),
    ("reset", "`reset` stands where a call"),
    ("logical unit", "`logical` stands where a call"),
    ("page", "`page` stands where a call"),
    ("3", "`3` stands where a call"),
    ("demount now", "`now` stands after the end of the call"),
    ("demount nexus 3", "`nexus` stands after the end of the call"),
    ("power-on power-on", "`power-on` stands after the end of the call"),
    ("write", "the line ends where `nexus` is to stand"),
    ("write 3 supported", "`3` stands where `nexus` is to stand"),
    ("write nexus", "the line ends where nexus is to stand"),
    ("write nexus x supported", "`x` stands where a number (nexus) is to stand"),
    ("write nexus -3 supported", "`-3` stands where a number (nexus) is to stand"),
    ("write nexus +3 supported", "`+3` stands where a number (nexus) is to stand"),
    ("write nexus 3.0 supported", "`3.0` stands where a number (nexus) is to stand"),
    ("write nexus 0ah0 supported", "`0ah0` stands where a number (nexus) is to stand"),
    ("write nexus 2b supported", "`2b` stands where a number (nexus) is to stand"),
    ("write nexus 256 supported", "nexus 256 is above 255"),
    ("write nexus 100h supported", "nexus 100h is above 255"),
    ("write nexus 99999999999999999999999 supported", "nexus 99999999999999999999999 is above 255"),
    ("write nexus 3", "the line ends where `supported` or `not supported` is to stand"),
    ("write nexus 3 not", "`not` stands where `supported` or `not supported` is to stand"),
    ("write nexus 3 1", "`1` stands where `supported` or `not supported` is to stand"),
    ("write nexus 3 supported yes", "`yes` stands after the end of the call"),
    ("in nexus 3", "the line ends where `page` is to stand"),
    ("in nexus 3 page", "the line ends where page code is to stand"),
    ("in nexus 3 page 0020", "page code `0020` is not in hex: `0010h` or `0x0010`"),
    ("in nexus 3 page 10b", "page code `10b` is not in hex"),
    ("in nexus 3 page 10000h", "page code 10000h is above 65535"),
    ("in nexus 3 page status", "`status` stands where a number (page code) is to stand"),
    ("in nexus 3 page 0020h public", "`public` stands after the end of the call"),
    ("vendor release 2", "`2` stands where `place` is to stand"),
    ("vendor release place 65536", "place 65536 is above 65535"),
    ("preempt", "the line ends where `nexus` is to stand"),
    (
        "read nexus 3 key main",
        "`key` stands where a block kind (plain, encrypted, otherwise, or `kind` and a number)",
    ),
    ("read nexus 3 plain", "the line ends where `key` is to stand"),
    ("read nexus 3 kind 256 key main", "block kind 256 is above 255"),
    ("read nexus 3 plain key", "the line ends where key is to stand"),
    ("read nexus 3 plain key 256", "key 256 is above 255"),
    ("read nexus 3 plain key first", "`first` stands where a number (key) is to stand"),
    ("out nexus 3 page 0010h", "the page has no scope: public, local or all"),
    ("out nexus 3 page 0010h lock", "the page has no scope: public, local or all"),
    ("out nexus 3 page 0010h local", "the page has no encryption mode: disable, external or encrypt"),
    ("out nexus 3 page 0010h local mixed", "the page has no encryption mode: disable, external or encrypt"),
    (
        "out nexus 3 page 0010h local encrypt",
        "the page has no decryption mode: disable, raw, decrypt or mixed",
    ),
    ("out nexus 3 page 0010h public disable", "the page has no decryption mode"),
    ("out nexus 3 page 0010h public local", "the scope is said twice"),
    ("out nexus 3 page 0010h public lock lock", "the lock is said twice"),
    ("out nexus 3 page 0010h scope 8", "scope 8 is above 7"),
    ("out nexus 3 page 0010h public ceem 10", "ceem 10 is above 3 (in binary: 00b, 01b, 10b, 11b)"),
    ("out nexus 3 page 0010h public rdmc 100b", "rdmc 100b is above 3 (in binary"),
    ("out nexus 3 page 0010h public algorithm 256", "algorithm index 256 is above 255"),
    (
        "out nexus 3 page 0010h public nonce",
        "`nonce` stands where a field of a Set Data Encryption page, `bytes` or `at`",
    ),
    (
        "out nexus 3 page 0010h public key",
        "the line ends where a byte of two hex digits, or `empty`, is to stand",
    ),
    (
        "out nexus 3 page 0010h public key lock",
        "`lock` stands where a byte of two hex digits, or `empty`, is to stand",
    ),
    ("out nexus 3 page 0010h bytes 0", "`0` is no byte, which has two hex digits"),
    ("out nexus 3 page 0010h bytes 00*x", "`00*x` is no run, as `A7*32` is"),
    ("out nexus 3 page 0010h bytes 00*0", "`00*0` is no run, as `A7*32` is"),
    ("out nexus 3 page 0010h bytes 00 xx", "`xx` stands after the end of the call"),
    ("out nexus 3 page 0010h at 3", "the line ends where `length` is to stand"),
];

#[test]
fn each_fault_is_named_with_its_line() {
    for (line, what) in WRONG {
        for before in 0..3 {
            let text = format!("{}{line}\nmount\n", "demount # a line\n".repeat(before));
            let (at, said) = refused(&text);
            assert!(at == before + 1 && said.starts_with(what), "{line}: line {at}: {said}");
        }
    }
}

#[test]
fn blank_lines_and_comments_count_as_lines() {
    assert_eq!(refused("\n# power-on\n\r\nmount\n").0, 4);
}

#[test]
fn a_page_past_the_page_bytes_is_refused_at_its_event() {
    let text = "demount\nout nexus 3 page 0010h at 1 length 2\npage bytes 01 02";
    let what = "the page at 1 of length 2 ends at 3, past the 2 page bytes";
    assert_eq!(refused(text), (2, what.to_string()));
    assert_eq!(refused("out nexus 3 page 0010h at 65535 length 65535").0, 1);
    recorded("out nexus 3 page 0010h at 1 length 2\npage bytes 01 02 03");
}

#[test]
fn the_8191st_event_is_refused_at_its_line() {
    assert_eq!((MOST_EVENTS, LONGEST), (8_190, 65_535));
    let text = "demount\n".repeat(MOST_EVENTS);
    assert_eq!(recorded(&text).bytes().len(), 65_528);
    assert_eq!(shown(&text), text);
    assert_eq!(refused(&(text.clone() + "\nmicrocode\n")), (8_192, "more than 8190 events".to_string()));
    recorded(&(text.clone() + "page bytes 00*7"));
    let (line, what) = refused(&(text + "page bytes 00*8"));
    assert_eq!(line, 8_191);
    assert!(what.starts_with(
        "the recording has 65536 bytes up to here (8, 8 for each of 8190 events, and 8 of pages)"
    ));
}

#[test]
fn the_byte_past_65535_is_refused_at_its_line() {
    let out = |count: usize| format!("demount\nout nexus 3 page 0010h bytes 00*{count}\n");
    let whole = recorded(&out(65_511));
    assert_eq!(whole.bytes().len(), LONGEST);
    assert_eq!(refused(&out(65_512)).0, 2);
    assert_eq!(refused(&(out(65_511) + "demount\n")).0, 3);
    assert_eq!(refused(&(out(65_000) + "page bytes 00*511\n\npage bytes 01\n")).0, 5);
    assert_eq!(refused("out nexus 3 page 0010h public key 00*65535 u-kad 00*65535").0, 1);
}

#[test]
fn runs_that_no_file_can_hold_are_refused() {
    for run in
        ["00*65536", "0000*32768", "00*99999999999999999999", "00*18446744073709551615", "00*60000 00*60000"]
    {
        let (line, what) = refused(&format!("\npage bytes {run}"));
        assert!(
            line == 2 && what.contains("more bytes than the 65535 of a whole recording"),
            "{run}: {what}"
        );
    }
}
