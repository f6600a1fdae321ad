//! "A line is a call": each kind, its fields, and the forms that a text may have.

use crate::{parts, shown};

/// A line, and the eight bytes of its event.
const LINES: [(&str, [u8; 8]); 25] = [
    ("power-on", [0, 0, 0, 0, 0, 0, 0, 0]),
    ("in nexus 3 page 0020h", [1, 3, 0x00, 0x20, 0, 0, 0, 0]),
    ("in nexus 255 page FFFFh", [1, 255, 0xFF, 0xFF, 0, 0, 0, 0]),
    ("out nexus 3 page 0010h bytes 01 02", [2, 3, 0x00, 0x10, 0, 0, 0, 2]),
    ("out nexus 0 page 1234h bytes empty", [2, 0, 0x12, 0x34, 0, 0, 0, 0]),
    ("write nexus 3 supported", [3, 3, 0, 1, 0, 0, 0, 0]),
    ("write nexus 3 not supported", [3, 3, 0, 0, 0, 0, 0, 0]),
    ("write nexus 200 supported", [3, 200, 0, 1, 0, 0, 0, 0]),
    ("logical unit reset", [4, 0, 0, 0, 0, 0, 0, 0]),
    ("demount", [5, 0, 0, 0, 0, 0, 0, 0]),
    ("nexus reservation loss nexus 3", [6, 3, 0, 0, 0, 0, 0, 0]),
    ("device reservation loss", [7, 0, 0, 0, 0, 0, 0, 0]),
    ("preempt nexus 4", [8, 4, 0, 0, 0, 0, 0, 0]),
    ("microcode", [9, 0, 0, 0, 0, 0, 0, 0]),
    ("vendor release place 2", [10, 0, 0, 2, 0, 0, 0, 0]),
    ("vendor release place 65535", [10, 0, 0xFF, 0xFF, 0, 0, 0, 0]),
    ("read nexus 3 plain key none", [11, 3, 0, 255, 0, 0, 0, 0]),
    ("read nexus 3 encrypted key main", [11, 3, 1, 0, 0, 0, 0, 0]),
    ("read nexus 3 otherwise key 1", [11, 3, 2, 1, 0, 0, 0, 0]),
    ("read nexus 3 kind 3 key 4", [11, 3, 3, 4, 0, 0, 0, 0]),
    ("read nexus 3 kind 7 key 5", [11, 3, 7, 5, 0, 0, 0, 0]),
    ("read nexus 3 kind 255 key 254", [11, 3, 255, 254, 0, 0, 0, 0]),
    ("read nexus 3 plain key main", [11, 3, 0, 0, 0, 0, 0, 0]),
    ("read nexus 3 encrypted key none", [11, 3, 1, 255, 0, 0, 0, 0]),
    ("read nexus 255 encrypted key 4", [11, 255, 1, 4, 0, 0, 0, 0]),
];

#[test]
fn each_line_is_its_event_and_is_shown_as_it_is() {
    for (line, event) in LINES {
        assert_eq!(parts(line).0, event, "{line}");
        assert_eq!(shown(line), format!("{line}\n"));
    }
}

#[test]
fn all_of_them_stand_in_their_order() {
    let text: String = LINES.iter().map(|(line, _)| format!("{line}\n")).collect();
    assert_eq!(shown(&text), text);
    let kinds: Vec<u8> = parts(&text).0.chunks(8).map(|event| event[0]).collect();
    assert_eq!(kinds, LINES.map(|(_, event)| event[0]));
}

#[test]
fn a_nexus_and_a_place_may_be_any_number_of_their_size() {
    for nexus in 0..=255 {
        let line = format!("preempt nexus {nexus}");
        assert_eq!(parts(&line).0[..2], [8, nexus]);
        assert_eq!(shown(&line), line + "\n");
    }
    for argument in (0..=65_535u16).step_by(37) {
        let line = format!("in nexus 1 page {argument:04X}h\nvendor release place {argument}\n");
        assert_eq!(parts(&line).0[10..12], argument.to_be_bytes());
        assert_eq!(shown(&line), line);
    }
}

#[test]
fn a_read_may_have_any_kind_and_key() {
    for argument in 0..=65_535u16 {
        let [block_kind, key] = argument.to_be_bytes();
        let line = format!("read nexus 3 kind {block_kind} key {key}");
        assert_eq!(parts(&line).0[2..4], [block_kind, key]);
        assert_eq!(parts(&shown(&line)).0[2..4], [block_kind, key]);
    }
}

#[test]
fn numbers_are_decimal_hex_or_binary() {
    for nexus in ["32", "032", "20h", "020h", "0x20", "0X20", "20H", "100000b"] {
        assert_eq!(shown(&format!("preempt nexus {nexus}")), "preempt nexus 32\n", "{nexus}");
    }
    for code in ["0020h", "20h", "0x20", "0x0020", "000020h"] {
        assert_eq!(shown(&format!("in nexus 1 page {code}")), "in nexus 1 page 0020h\n", "{code}");
    }
}

#[test]
fn bytes_are_two_hex_digits_each_and_runs_are_counted() {
    let lists = [
        ("00 10 00 30", "00 10 00 30"),
        ("00100030", "00 10 00 30"),
        ("0010 0030", "00 10 00 30"),
        ("a7 A7", "A7 A7"),
        ("A7*2", "A7 A7"),
        ("A7 A7 A7", "A7*3"),
        ("A7*2 A7*30", "A7*32"),
        ("A7*20h", "A7*32"),
        ("0102*2", "01 02 01 02"),
        ("empty", "empty"),
    ];
    for (list, canonical) in lists {
        let shown = shown(&format!("out nexus 1 page 0010h bytes {list}"));
        assert_eq!(shown, format!("out nexus 1 page 0010h bytes {canonical}\n"), "{list}");
    }
}

#[test]
fn comments_blank_lines_letters_and_spaces_say_nothing() {
    let text = "\u{FEFF}# a comment\n\n  \t \r\nPower On # demount\nDEMOUNT#\n  Logical\tUnit   Reset  \r\nmicrocode";
    assert_eq!(shown(text), "power-on\ndemount\nlogical unit reset\nmicrocode\n");
}

#[test]
fn three_calls_have_another_name() {
    assert_eq!(shown("power on"), "power-on\n");
    assert_eq!(shown("SECURITY PROTOCOL IN nexus 3 page 0020h"), "in nexus 3 page 0020h\n");
    assert_eq!(shown("SECURITY PROTOCOL OUT nexus 3 page 0010h public"), "out nexus 3 page 0010h public\n");
}
