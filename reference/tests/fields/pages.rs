//! Bytes of pages in words, with their neighbours, and pages and bytes of any kind.

use crate::{but, descriptor, k, k_with};
use reference::comparison::numbers::Numbers;
use reference::field_words::{field, Page};

const NO_FIELD: &str = "which no rule points to";
const PAST: &str = "past the page's end";

/// The words after "byte N, ".
fn name(page: Page, bytes: &[u8], byte: u16) -> String {
    let words = field(page, bytes, byte);
    words.strip_prefix(&format!("byte {byte}, ")).expect("the number stands first").to_string()
}

fn assert_names(page: Page, bytes: &[u8], names: &[(u16, &str)]) {
    for &(byte, expected) in names {
        assert_eq!(name(page, bytes, byte), expected, "byte {byte}");
    }
}

/// A status page of 01 with this list.
fn status(list: &[u8]) -> Vec<u8> {
    let mut page = vec![0x00, 0x20, 0x00, 20 + list.len() as u8, 0x21, 2, 2, 1, 0, 0, 0, 1, 2];
    page.resize(24, 0);
    page.extend(list);
    page
}

#[test]
fn fields_of_the_set_page() {
    assert_eq!(field(Page::SetDataEncryption, &k(), 18), "byte 18, key length");
    let names = [
        (0, "page code"),
        (1, "page code"),
        (2, NO_FIELD),
        (3, NO_FIELD),
        (4, "scope, reserved bits and lock"),
        (5, "CEEM, RDMC, SDK and CK bits"),
        (6, "encryption mode"),
        (7, "decryption mode"),
        (8, "algorithm index"),
        (9, "key format"),
        (10, "KAD format"),
        (11, "reserved byte"),
        (17, "reserved byte"),
        (18, "key length"),
        (19, "key length"),
        (20, NO_FIELD),
        (51, NO_FIELD),
        (52, PAST),
        (53, PAST),
        (65_535, PAST),
    ];
    assert_names(Page::SetDataEncryption, &k(), &names);
}

#[test]
fn fields_of_the_status_page() {
    let names = [
        (0, "page code"),
        (2, NO_FIELD),
        (4, "nexus scope and set scope"),
        (5, "encryption mode"),
        (6, "decryption mode"),
        (7, "algorithm index"),
        (8, NO_FIELD),
        (11, NO_FIELD),
        (12, "control, VCELB, CEEMS and RDMD"),
        (13, "fixed zero byte"),
        (23, "fixed zero byte"),
        (24, PAST),
    ];
    assert_names(Page::Status, &status(&[]), &names);
}

#[test]
fn descriptors_are_counted_from_the_end_of_the_key() {
    let list = [descriptor(0, &[7; 6]), descriptor(1, &[9]), vec![1, 0, 0]].concat();
    let names = [
        (51, NO_FIELD),
        (52, "type of the first descriptor"),
        (53, "zero byte of the first descriptor"),
        (54, "length of the first descriptor"),
        (55, "length of the first descriptor"),
        (56, NO_FIELD),
        (61, NO_FIELD),
        (62, "type of the second descriptor"),
        (63, "zero byte of the second descriptor"),
        (64, "length of the second descriptor"),
        (66, NO_FIELD),
        (67, "type of the third descriptor"),
        (68, "zero byte of the third descriptor"),
        (69, "length of the third descriptor"),
        (70, PAST),
    ];
    assert_names(Page::SetDataEncryption, &k_with(&list), &names);
    // the status page has the list 28 bytes earlier
    let names = names[1..].iter().map(|&(byte, name)| (byte - 28, name)).collect::<Vec<_>>();
    assert_names(Page::Status, &status(&list), &names);
}

#[test]
fn a_key_of_another_length_moves_the_list() {
    for (length, list) in [(0, 20), (1, 21), (31, 51), (33, 53)] {
        let page = but(k_with(&[0; 8]), &[(19, length)]);
        assert_names(
            Page::SetDataEncryption,
            &page,
            &[(list, "type of the first descriptor"), (list + 1, "zero byte of the first descriptor")],
        );
        assert_ne!(name(Page::SetDataEncryption, &page, list - 1), "type of the first descriptor");
    }
    // a key past the page's end leaves no byte for a list
    for length in [[0, 61], [1, 32], [255, 255]] {
        let page = but(k_with(&[0; 8]), &[(18, length[0]), (19, length[1])]);
        assert_names(Page::SetDataEncryption, &page, &[(18, "key length"), (59, NO_FIELD), (60, PAST)]);
    }
}

#[test]
fn descriptors_without_data_and_more_than_three() {
    let list = [descriptor(0, &[]), descriptor(0, &[]), descriptor(0, &[]), descriptor(0, &[5])].concat();
    let names = [
        (52, "type of the first descriptor"),
        (56, "type of the second descriptor"),
        (60, "type of the third descriptor"),
        (63, "length of the third descriptor"),
        (64, "type of descriptor number 4"),
        (66, "length of descriptor number 4"),
        (68, NO_FIELD),
        (69, PAST),
    ];
    assert_names(Page::SetDataEncryption, &k_with(&list), &names);
}

#[test]
fn bytes_are_left_over_without_encrypt_and_with_a_supplemental_key() {
    let list = descriptor(0, &[7; 6]);
    for changes in [&[(6, 1)][..], &[(6, 0)], &[(6, 3)], &[(5, 0x4C)], &[(5, 0x08), (6, 1)]] {
        let page = but(k_with(&list), changes);
        let names = [(51, NO_FIELD), (52, "bytes left over"), (61, "bytes left over"), (62, PAST)];
        assert_names(Page::SetDataEncryption, &page, &names);
    }
    // neither bit 2 nor bit 4 of byte 5 is SDK
    let page = but(k_with(&list), &[(5, 0xF7)]);
    assert_names(Page::SetDataEncryption, &page, &[(52, "type of the first descriptor")]);
    // the status page has a list under any mode
    let page = but(status(&list), &[(5, 0x08), (6, 0)]);
    assert_names(Page::Status, &page, &[(24, "type of the first descriptor")]);
}

#[test]
fn a_page_of_any_length_has_its_fields_up_to_its_end() {
    let whole = k_with(&descriptor(0, &[7; 6]));
    for length in 0..=whole.len() {
        let page = &whole[..length];
        for byte in 0..=whole.len() as u16 {
            let past = usize::from(byte) >= length;
            assert_eq!(name(Page::SetDataEncryption, page, byte) == PAST, past, "{byte} of {length}");
        }
        let names = [
            (0, "page code"),
            (10, "KAD format"),
            (18, "key length"),
            (54, "length of the first descriptor"),
        ];
        for (byte, expected) in names.into_iter().filter(|&(byte, _)| usize::from(byte) < length) {
            assert_eq!(name(Page::SetDataEncryption, page, byte), expected, "{byte} of {length}");
        }
    }
}

#[test]
fn any_bytes_have_words() {
    let mut numbers = Numbers::new(20_260_101);
    for _ in 0..20_000 {
        let length = numbers.below(120);
        let page = numbers.bytes(length);
        let byte = numbers.below(length + 3) as u16;
        for kind in [Page::SetDataEncryption, Page::Status] {
            assert_eq!(name(kind, &page, byte) == PAST, usize::from(byte) >= length);
        }
    }
    // the longest page that a command has, of descriptors without data
    let page = but(vec![0; 65_535], &[(6, 2)]);
    assert_eq!(name(Page::SetDataEncryption, &page, 65_534), "length of descriptor number 16379");
}
