//! The lines and words of docs/FIELDS.md below its table.

use crate::{but, descriptor, k, k_with};
use reference::answer_words::short;
use reference::field_words::{field, Page};

const DOCUMENT: &str = include_str!("../../../docs/FIELDS.md");

/// The section that tells how the words look.
fn section() -> &'static str {
    DOCUMENT.split_once("\n## In words\n").expect("the section is there").1
}

#[test]
fn the_lines_are_those_of_their_pages() {
    let u_kad = descriptor(0, &[7; 6]);
    let pages = [
        (but(k(), &[(19, 31)]), 18),
        (k_with(&descriptor(0, &[7; 33])), 54),
        (but(k_with(&u_kad), &[(6, 1)]), 52),
    ];
    let told =
        pages.map(|(page, byte)| short(8, [5, 0x26, 0], Some(&field(Page::SetDataEncryption, &page, byte))));
    let lines: Vec<&str> = section().lines().filter_map(|line| line.strip_prefix("    ")).collect();
    assert_eq!(lines, told);
}

#[test]
fn bytes_that_are_no_field_are_told_so() {
    for (page, byte) in [(k(), 2), (k_with(&[0; 8]), 60)] {
        let words = field(Page::SetDataEncryption, &page, byte);
        assert!(section().contains(&format!("`{words}`")), "{words}");
    }
}

#[test]
fn the_link_leads_to_a_heading() {
    let console = include_str!("../../../docs/CONSOLE.md");
    assert!(DOCUMENT.contains("(CONSOLE.md#the-field-pointer)"));
    assert!(console.lines().any(|line| line == "## The field pointer"));
}
