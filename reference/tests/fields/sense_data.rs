//! docs/CONSOLE.md, "The field pointer": its example, and answers without a faulty byte.

use reference::hex;
use reference::sense_data::fixed;

const CONSOLE: &str = include_str!("../../../docs/CONSOLE.md");

fn section() -> &'static str {
    let section = CONSOLE.split_once("\n## The field pointer\n").expect("the section is there").1;
    section.split_once("\n## ").map_or(section, |(section, _)| section)
}

/// The code that stands after some words of the section.
fn code_after(words: &str) -> &'static str {
    let rest = section().split_once(words).unwrap_or_else(|| panic!("no `{words}`")).1;
    rest.split('`').nth(1).expect("there is code after it")
}

/// The bytes of a text in hex.
fn bytes(text: &str) -> Vec<u8> {
    hex::read(&text.replace(' ', "")).unwrap_or_else(|| panic!("{text} is in hex"))
}

/// The sense and the faulty byte of the example's reply.
fn example() -> ([u8; 3], u16) {
    let reply = bytes(code_after("which is answered"));
    let &[8, key, asc, ascq, 0, 2, high, low] = reply.as_slice() else { panic!("{reply:02X?}") };
    ([key, asc, ascq], u16::from_be_bytes([high, low]))
}

#[test]
fn the_example_is_in_fixed_format_as_it_stands() {
    let (sense, byte) = example();
    assert_eq!((sense, byte), ([5, 0x26, 0], 18));
    let lines: Vec<&str> = section().lines().filter_map(|line| line.strip_prefix("    ")).collect();
    let [line] = lines.as_slice() else { panic!("{lines:?}") };
    assert_eq!(bytes(line), fixed(sense, Some(byte)));
}

#[test]
fn the_descriptor_format_has_the_same_three_bytes() {
    let (sense, byte) = example();
    let descriptor = bytes(code_after("In descriptor format"));
    assert_eq!(descriptor.len(), usize::from(descriptor[1]) + 2);
    assert_eq!(descriptor[4..7], fixed(sense, Some(byte))[15..]);
}

#[test]
fn each_row_of_the_table_that_has_a_value_is_so() {
    let (sense, byte) = example();
    let data = fixed(sense, Some(byte));
    let mut count = 0;
    for row in section().lines().filter(|line| line.starts_with("| ")) {
        let cells: Vec<&str> = row.trim_matches('|').split('|').map(str::trim).collect();
        let Some(value) = cells[2].get(..2).filter(|_| cells[2][2..].starts_with('h')).and_then(hex::read)
        else {
            continue;
        };
        for part in cells[0].split(", ") {
            let (first, last) = part.split_once('–').unwrap_or((part, part));
            let ends = [first, last].map(|end| end.parse::<usize>().expect("a number"));
            for at in ends[0]..=ends[1] {
                assert_eq!(data[at], value[0], "byte {at}: {row}");
                count += 1;
            }
        }
    }
    assert_eq!(count, 16, "all but the field pointer's two");
}

#[test]
fn the_pointer_is_of_two_bytes() {
    let data = fixed([5, 0x26, 0], Some(0xABCD));
    assert_eq!(data[15..], [0x80, 0xAB, 0xCD]);
    assert_eq!(fixed([5, 0x26, 0], Some(0))[15..], [0x80, 0, 0]);
}

#[test]
fn other_answers_point_nowhere() {
    for sense in [[6, 0x2A, 0x11], [5, 0x24, 0], [7, 0x74, 0x07]] {
        let [key, asc, ascq] = sense;
        let expected = [0x70, 0, key, 0, 0, 0, 0, 10, 0, 0, 0, 0, asc, ascq, 0, 0, 0, 0];
        assert_eq!(fixed(sense, None), expected);
    }
}
