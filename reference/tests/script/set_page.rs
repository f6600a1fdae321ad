//! "The page of an `out`": each field in words, and the bytes it makes.

use crate::{parts, refused, shown};
use reference::comparison::page_builder::SetPage;
use reference::recording::{Event, Recording};
use reference::script::{event_words, show};

/// A page of 20 bytes with these bytes 4 to 8.
fn page_of(bytes: [u8; 5]) -> Vec<u8> {
    let mut page = vec![0x00, 0x10, 0x00, 0x10];
    page.extend(bytes);
    page.resize(20, 0);
    page
}

/// The page that fields make.
fn made(fields: &str) -> Vec<u8> {
    parts(&format!("out nexus 3 page 0010h {fields}")).1
}

/// A recording of one OUT.
fn sent(page: &[u8]) -> Recording {
    let event = Event { kind: 2, nexus: 3, argument: 0x0010, page_offset: 0, page_length: page.len() as u16 };
    Recording { events: vec![event], page_bytes: page.to_vec() }
}

/// How a page is shown.
fn shown_page(page: &[u8]) -> String {
    let text = show(&sent(page));
    text.trim_end().strip_prefix("out nexus 3 page 0010h ").expect("it is an OUT").to_string()
}

#[test]
fn each_field_has_its_bits() {
    let fields = [
        ("public", [0x00, 0x00, 0, 0, 1]),
        ("local disable disable", [0x20, 0x00, 0, 0, 1]),
        ("all disable disable", [0x40, 0x00, 0, 0, 1]),
        ("scope 3 disable disable", [0x60, 0x00, 0, 0, 1]),
        ("scope 7 disable disable", [0xE0, 0x00, 0, 0, 1]),
        ("public lock", [0x01, 0x00, 0, 0, 1]),
        ("public external disable", [0x00, 0x00, 1, 0, 1]),
        ("public disable raw", [0x00, 0x00, 0, 1, 1]),
        ("local external disable", [0x20, 0x00, 1, 0, 1]),
        ("local encrypt disable", [0x20, 0x00, 2, 0, 1]),
        ("local encryption 3 disable", [0x20, 0x00, 3, 0, 1]),
        ("local encryption 255 disable", [0x20, 0x00, 255, 0, 1]),
        ("local disable raw", [0x20, 0x00, 0, 1, 1]),
        ("local disable decrypt", [0x20, 0x00, 0, 2, 1]),
        ("local disable mixed", [0x20, 0x00, 0, 3, 1]),
        ("local disable decryption 4", [0x20, 0x00, 0, 4, 1]),
        ("local encrypt mixed lock", [0x21, 0x00, 2, 3, 1]),
        ("public ceem 01b", [0x00, 0x40, 0, 0, 1]),
        ("public ceem 10b", [0x00, 0x80, 0, 0, 1]),
        ("public ceem 11b", [0x00, 0xC0, 0, 0, 1]),
        ("public rdmc 01b", [0x00, 0x10, 0, 0, 1]),
        ("public rdmc 10b", [0x00, 0x20, 0, 0, 1]),
        ("public rdmc 11b", [0x00, 0x30, 0, 0, 1]),
        ("public sdk", [0x00, 0x08, 0, 0, 1]),
        ("public ckod", [0x00, 0x04, 0, 0, 1]),
        ("public ckorp", [0x00, 0x02, 0, 0, 1]),
        ("public ckorl", [0x00, 0x01, 0, 0, 1]),
        ("public algorithm 0", [0x00, 0x00, 0, 0, 0]),
        ("public algorithm 255", [0x00, 0x00, 0, 0, 255]),
        ("all encrypt mixed lock ceem 11b rdmc 11b sdk ckod ckorp ckorl algorithm 2", [0x41, 0xFF, 2, 3, 2]),
    ];
    for (words, bytes) in fields {
        assert_eq!(made(words), page_of(bytes), "{words}");
        assert_eq!(shown_page(&page_of(bytes)), words);
    }
}

#[test]
fn key_and_descriptors_are_counted() {
    let page = made("local encrypt decrypt key A7*32 u-kad 41 42 a-kad 43");
    let mut expected = vec![0x00, 0x10, 0x00, 0x3B, 0x20, 0, 2, 2, 1, 0, 0, 0, 0, 0, 0, 0, 0, 0, 0x00, 0x20];
    expected.extend([0xA7; 32]);
    expected.extend([0, 0, 0, 2, 0x41, 0x42, 1, 0, 0, 1, 0x43]);
    assert_eq!(page, expected);
    assert_eq!(made("local encrypt decrypt a-kad 43 key A7*32 u-kad 41 42"), expected, "U-KAD stands first");
    assert_eq!(made("public u-kad empty")[20..], [0, 0, 0, 0]);
    assert_eq!(made("public key 01*300")[18..20], [0x01, 0x2C]);
    assert_eq!(made("public key empty"), made("public"));
    assert_eq!(made("public a-kad 05*300")[20..24], [1, 0, 0x01, 0x2C]);
}

#[test]
fn page_k_of_01_is_said_by_its_fields() {
    let words = "local encrypt decrypt lock ceem 01b ckod key ";
    let page = shown_page(&SetPage::k().bytes());
    assert!(page.starts_with(&format!("{words}01 02 03 ")) && page.ends_with(" 1F 20"), "{page}");
    assert_eq!(made(&page), SetPage::k().bytes());
}

#[test]
fn the_order_of_fields_is_free() {
    let usual = "local encrypt disable lock key A7*32";
    for fields in [
        "lock key A7*32 encrypt disable local",
        "key A7*32 local decryption disable encrypt lock",
        "decryption disable encryption encrypt scope local lock key A7*32",
        "scope 1 encryption 2 decryption 0 key A7*32 lock",
    ] {
        assert_eq!(made(fields), made(usual), "{fields}");
    }
}

#[test]
fn the_first_disable_is_the_encryption_mode_unless_one_stands_before_it() {
    assert_eq!(made("local disable mixed")[6..8], [0, 3]);
    assert_eq!(made("local mixed disable")[6..8], [0, 3]);
    assert_eq!(made("local disable disable")[6..8], [0, 0]);
    assert_eq!(made("local encrypt disable")[6..8], [2, 0]);
    assert_eq!(made("local encryption 7 disable")[6..8], [7, 0]);
    let twice = refused("out nexus 3 page 0010h local disable encrypt");
    assert_eq!(twice, (1, "the encryption mode is said twice".to_string()));
}

#[test]
fn a_page_that_fields_do_not_make_is_said_by_its_bytes() {
    let k = SetPage::k().bytes();
    let mut pages = vec![Vec::new(), k[..19].to_vec(), k[..51].to_vec(), [&k[..], &[0]].concat()];
    for at in [0, 1, 2, 3, 9, 10, 11, 12, 13, 14, 15, 16, 17, 18, 19] {
        let mut page = k.clone();
        page[at] ^= 0x40;
        pages.push(page);
    }
    for bit in 1..=4 {
        let mut page = k.clone();
        page[4] ^= 1 << bit;
        pages.push(page);
    }
    let falling = SetPage { list: vec![1, 0, 0, 1, 9, 0, 0, 0, 1, 9], ..SetPage::k() };
    let twice = SetPage { list: vec![0, 0, 0, 1, 9, 0, 0, 0, 1, 9], ..SetPage::k() };
    let other_type = SetPage { list: vec![2, 0, 0, 1, 9], ..SetPage::k() };
    let byte_1 = SetPage { list: vec![0, 1, 0, 1, 9], ..SetPage::k() };
    let cut = SetPage { list: vec![0, 0, 0, 2, 9], ..SetPage::k() };
    pages.extend([falling, twice, other_type, byte_1, cut].map(|page| page.bytes()));
    for page in pages {
        let words = shown_page(&page);
        assert!(words.starts_with("bytes "), "{words}");
        assert_eq!(made(&words), page);
    }
}

#[test]
fn the_code_of_the_command_is_not_that_of_the_page() {
    let (events, page) = parts("out nexus 3 page 0011h public");
    assert_eq!((&events[2..4], &page[..2]), (&[0x00, 0x11][..], &[0x00, 0x10][..]));
    assert_eq!(shown("out nexus 3 page 0011h public"), "out nexus 3 page 0011h public\n");
}

#[test]
fn in_words_a_long_list_is_shortened_to_its_first_four_and_its_count() {
    let words = |page: &[u8]| {
        let recording = sent(page);
        event_words(&recording, &recording.events[0])
    };
    let k = words(&SetPage::k().bytes());
    assert_eq!(
        k,
        "out nexus 3 page 0010h local encrypt decrypt lock ceem 01b ckod key 01 02 03 04 .. (32 bytes)"
    );
    assert_eq!(words(&[1, 2, 3, 4, 5, 6, 7, 8]), "out nexus 3 page 0010h bytes 01 02 03 04 05 06 07 08");
    assert_eq!(words(&[1, 2, 3, 4, 5, 6, 7, 8, 9]), "out nexus 3 page 0010h bytes 01 02 03 04 .. (9 bytes)");
    assert_eq!(words(&[7; 5_000]), "out nexus 3 page 0010h bytes 07*5000");
    assert_eq!(words(&[]), "out nexus 3 page 0010h bytes empty");
}
