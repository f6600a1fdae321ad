//! The table of docs/FIELDS.md: it can be read, its rows don't overlap, and each byte that a rule points to has a name.

use reference::field_words::{read, table, Page, Part, Row};

const SET: Part = Part::Of(Page::SetDataEncryption);
const STATUS: Part = Part::Of(Page::Status);

/// The bytes to which 01's rules point, by 02's request 6, and what stands there by 01.
const POINTED_TO: [(Part, usize, &str); 38] = [
    (SET, 0, "page code"),
    (SET, 4, "scope, reserved bits and lock"),
    (SET, 5, "CEEM, RDMC, SDK and CK bits"),
    (SET, 6, "encryption mode"),
    (SET, 7, "decryption mode"),
    (SET, 8, "algorithm index"),
    (SET, 9, "key format"),
    (SET, 10, "KAD format"),
    (SET, 11, "reserved byte"),
    (SET, 12, "reserved byte"),
    (SET, 13, "reserved byte"),
    (SET, 14, "reserved byte"),
    (SET, 15, "reserved byte"),
    (SET, 16, "reserved byte"),
    (SET, 17, "reserved byte"),
    (SET, 18, "key length"),
    (Part::LeftOver, 0, "bytes left over"),
    (STATUS, 0, "page code"),
    (STATUS, 4, "nexus scope and set scope"),
    (STATUS, 5, "encryption mode"),
    (STATUS, 6, "decryption mode"),
    (STATUS, 7, "algorithm index"),
    (STATUS, 12, "control, VCELB, CEEMS and RDMD"),
    (STATUS, 13, "fixed zero byte"),
    (STATUS, 14, "fixed zero byte"),
    (STATUS, 15, "fixed zero byte"),
    (STATUS, 16, "fixed zero byte"),
    (STATUS, 17, "fixed zero byte"),
    (STATUS, 18, "fixed zero byte"),
    (STATUS, 19, "fixed zero byte"),
    (STATUS, 20, "fixed zero byte"),
    (STATUS, 21, "fixed zero byte"),
    (STATUS, 22, "fixed zero byte"),
    (STATUS, 23, "fixed zero byte"),
    (Part::Descriptor, 0, "type"),
    (Part::Descriptor, 1, "zero byte"),
    (Part::Descriptor, 2, "length"),
    (Part::LeftOver, 65_535, "bytes left over"),
];

/// Second bytes of fields of two, which belong to their fields and are never pointed to.
const SECOND_BYTES: [(Part, usize, &str); 4] = [
    (SET, 1, "page code"),
    (SET, 19, "key length"),
    (STATUS, 1, "page code"),
    (Part::Descriptor, 3, "length"),
];

/// The names that rows have for a byte.
fn names(part: Part, byte: usize) -> Vec<&'static str> {
    let rows = table().iter().filter(|row| row.part == part && row.bytes.contains(&byte));
    rows.map(|row| row.name).collect()
}

#[test]
fn each_byte_that_a_rule_points_to_has_its_name() {
    for (part, byte, name) in POINTED_TO.into_iter().chain(SECOND_BYTES) {
        assert_eq!(names(part, byte), [name], "{part:?}, byte {byte}");
    }
}

#[test]
fn no_other_byte_has_a_name() {
    for part in [SET, STATUS, Part::Descriptor] {
        let known = |&(other, byte, _): &(Part, usize, &str)| (other == part).then_some(byte);
        let known: Vec<usize> =
            POINTED_TO.iter().filter_map(known).chain(SECOND_BYTES.iter().filter_map(known)).collect();
        for byte in (0..=70_000).filter(|byte| !known.contains(byte)) {
            assert_eq!(names(part, byte), [""; 0], "{part:?}, byte {byte}");
        }
    }
}

#[test]
fn rows_do_not_overlap_and_stand_in_order() {
    for (before, after) in table().iter().zip(&table()[1..]) {
        assert!(before.part != after.part || before.bytes.end() < after.bytes.start(), "{after:?}");
    }
    let parts: Vec<Part> =
        table().chunk_by(|one, next| one.part == next.part).map(|rows| rows[0].part).collect();
    assert_eq!(parts, [SET, Part::LeftOver, STATUS, Part::Descriptor]);
}

#[test]
fn names_are_short_and_in_words_of_a_line() {
    for Row { name, .. } in table() {
        assert!(name.len() <= 32 && !name.contains([':', '(', ')', '`']), "{name}");
    }
}

#[test]
fn a_table_that_is_not_one_is_refused() {
    let heading = "# Title\n\n## The table\n\n| page | bytes | field | wrong |\n|---|---|---|---|\n";
    let whole = |row: &str| -> &'static str { format!("{heading}{row}\n\n## In words\n\n| x |\n").leak() };
    let right = read(whole("| 0020h | 4–5 | both modes | x |")).expect("it is a table");
    assert_eq!(right, [Row { part: STATUS, bytes: 4..=5, name: "both modes" }]);
    for row in [
        "",
        "| 0030h | 4 | both modes | x |",
        "| 0020h | 5–4 | both modes | x |",
        "| 0020h | 4-5 | both modes | x |",
        "| 0020h | four | both modes | x |",
        "| 0020h |  | both modes | x |",
        "| 0020h | after the key | both modes | x |",
        "| 0020h | 4 |  | x |",
        "| 0020h | 4 | both modes |",
        "| 0020h | 4 | both modes | x | y |",
    ] {
        assert!(read(whole(row)).is_err(), "{row}");
    }
    assert!(read("# Title\n").is_err());
}
