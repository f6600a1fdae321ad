//! 02, request 6: the number of the faulty byte, for the Set page and for the status reader.

use crate::given::{after_p2, descriptor, faulty_byte, k, k_but, k_with, without_key};
use reference::comparison::faulty_byte_cases::{bytes_told, PageKind, RuleOfPage};
use reference::comparison::numbers::Numbers;
use reference::comparison::page_builder::{random_damage, random_list, set_length, status_page_of, Edit};
use reference::comparison::record_builder::mixed_without_pending;
use reference::comparison::session::{batch, read_status, security_out};
use reference::record::Record;
use reference::status_page;
use reference::stream::{Command, Drive};

/// The lists that are wrong, with the byte told, counted from the list's start.
fn wrong_lists() -> Vec<(Vec<u8>, usize)> {
    let fine = descriptor(0, &[1; 6]);
    let after_fine = |second: &[u8]| [&fine, second].concat();
    let after_both = |third: &[u8]| [&fine[..], &descriptor(1, &[1; 5]), third].concat();
    vec![
        // a descriptor cut short by the page's end: its type byte
        (vec![0], 0),
        (vec![1, 0], 0),
        (vec![1, 0, 0], 0),
        (vec![0, 0, 0, 2, 9], 0),
        (vec![0, 0, 0, 32], 0),
        (vec![1, 0, 0, 12, 9, 9, 9], 0),
        (after_fine(&[1]), 10),
        (after_fine(&[1, 0]), 10),
        (after_fine(&[1, 0, 0]), 10),
        (after_fine(&[1, 0, 0, 1]), 10),
        // cut short, and wrong at a higher byte too
        (vec![0, 7], 0),
        (vec![0, 7, 0, 2, 9], 0),
        (vec![0, 0, 0, 33, 9], 0),
        (vec![1, 0, 1, 1, 9], 0),
        (after_fine(&[1, 7, 0]), 10),
        (after_fine(&[1, 0, 0, 13, 9]), 10),
        // a descriptor length: its first length byte, whichever of the two is wrong
        (descriptor(0, &[]), 2),
        (descriptor(0, &[1; 33]), 2),
        (descriptor(1, &[]), 2),
        (descriptor(1, &[1; 13]), 2),
        ([&[0, 0, 1, 0][..], &[9; 256]].concat(), 2),
        ([&[0, 0, 1, 1][..], &[9; 257]].concat(), 2),
        ([&[1, 0, 1, 12][..], &[9; 268]].concat(), 2),
        (after_fine(&descriptor(1, &[1; 13])), 12),
        (after_fine(&descriptor(1, &[])), 12),
        // the second byte
        (vec![0, 7, 0, 1, 9], 1),
        (vec![1, 1, 0, 13, 9, 9, 9, 9, 9, 9, 9, 9, 9, 9, 9, 9, 9], 1),
        (after_fine(&[1, 1, 0, 1, 9]), 11),
        // types that there aren't, and types that don't rise
        (vec![2, 0, 0, 1, 9], 0),
        (vec![2, 7, 0, 1, 9], 0),
        (vec![255], 0),
        (after_fine(&fine), 10),
        (after_fine(&[2, 0, 0, 1, 9]), 10),
        ([descriptor(1, &[1; 6]), fine.clone()].concat(), 10),
        ([descriptor(1, &[1; 6]), descriptor(1, &[1])].concat(), 10),
        (after_both(&[0, 0, 0, 1, 9]), 19),
        (after_both(&[1]), 19),
        (after_both(&[2, 2, 2, 2]), 19),
    ]
}

/// A status page in order, with some bytes changed and a list.
fn status_page(changes: &[(usize, u8)], list: &[u8]) -> Vec<u8> {
    let mut page = [status_page_of(24), list.to_vec()].concat();
    changes.iter().for_each(|&(at, value)| page[at] = value);
    set_length(&mut page);
    page
}

/// The faulty byte of a status page.
fn faulty_status_byte(page: &[u8]) -> Option<usize> {
    status_page::read(page).expect_err("the page is refused").answer.faulty_byte()
}

#[test]
fn whole_fields_point_to_their_first_byte() {
    let record = Record::power_on();
    for (changes, byte) in [
        (&[(1, 0x11)][..], 0),
        (&[(0, 0x01)], 0),
        (&[(0, 0x10), (1, 0x00)], 0),
        (&[(4, 0x61)], 4),
        (&[(4, 0xE1)], 4),
        (&[(4, 0x23)], 4),
        (&[(4, 0x31)], 4),
        (&[(5, 0x10)], 5),
        (&[(5, 0x80), (7, 0)], 5),
        (&[(5, 0xC4), (7, 0), (6, 9), (8, 9)], 5),
        (&[(5, 0xC4), (7, 0), (4, 0x23)], 4),
        (&[(6, 9)], 6),
        (&[(7, 9)], 7),
        (&[(8, 9)], 8),
        (&[(8, 0)], 8),
        (&[(9, 9)], 9),
        (&[(10, 9)], 10),
        (&[(19, 0)], 18),
        (&[(18, 1), (19, 0)], 18),
        (&[(19, 200)], 18),
        (&[(18, 1)], 18),
        (&[(19, 200), (10, 1)], 10),
        (&[(19, 31), (17, 1)], 17),
        (&[(4, 0x61), (1, 0x11)], 0),
        (&[(4, 0x61), (5, 0xFF), (17, 9)], 4),
    ] {
        assert_eq!(faulty_byte(&k_but(changes), &record, 3), Some(byte), "{changes:?}");
    }
}

#[test]
fn each_reserved_byte_is_a_field_of_its_own() {
    let record = after_p2().record;
    for byte in 11..=17 {
        for sdk in [0x00, 0x08] {
            assert_eq!(faulty_byte(&k_but(&[(5, sdk), (byte, 1)]), &record, 3), Some(byte));
            assert_eq!(faulty_byte(&k_but(&[(5, sdk), (byte, 0x80), (17, 9)]), &record, 3), Some(byte));
        }
    }
    for byte in 13..=23 {
        assert_eq!(faulty_status_byte(&status_page(&[(byte, 1)], &[])), Some(byte));
        assert_eq!(faulty_status_byte(&status_page(&[(byte, 0x80), (23, 9)], &[2])), Some(byte));
    }
}

#[test]
fn a_key_that_is_cut_points_to_18() {
    let record = after_p2().record;
    for sdk in [0x00, 0x08] {
        for length in 20..52 {
            let mut page = k_but(&[(5, sdk)])[..length].to_vec();
            set_length(&mut page);
            assert_eq!(faulty_byte(&page, &record, 3), Some(18));
            page[17] = 1;
            assert_eq!(faulty_byte(&page, &record, 3), Some(17));
        }
        assert_eq!(faulty_byte(&k_but(&[(5, sdk), (19, 33)]), &record, 3), Some(18));
        assert_eq!(faulty_byte(&k_but(&[(5, sdk), (18, 255)]), &record, 3), Some(18));
    }
}

#[test]
fn descriptors_of_both_pages() {
    for (list, byte) in wrong_lists() {
        let mut page = [k(), list.clone()].concat();
        set_length(&mut page);
        assert_eq!(faulty_byte(&page, &Record::power_on(), 3), Some(52 + byte), "{list:?}");
        assert_eq!(faulty_status_byte(&status_page(&[], &list)), Some(24 + byte), "{list:?}");
        page[17] = 1;
        assert_eq!(faulty_byte(&page, &Record::power_on(), 3), Some(17));
        assert_eq!(faulty_status_byte(&status_page(&[(23, 1)], &list)), Some(23));
    }
}

#[test]
fn bytes_left_over_point_to_the_first_of_them() {
    let record = after_p2().record;
    for list in [vec![0], vec![9; 4], descriptor(0, &[1]), vec![0; 300]] {
        let with_list = |page: Vec<u8>| {
            let mut page = [page, list.clone()].concat();
            set_length(&mut page);
            page
        };
        assert_eq!(faulty_byte(&with_list(k_but(&[(5, 0x08)])), &record, 3), Some(52));
        assert_eq!(faulty_byte(&with_list(k_but(&[(6, 0)])), &record, 3), Some(52));
        assert_eq!(faulty_byte(&with_list(k_but(&[(6, 1), (7, 3)])), &record, 3), Some(52));
        for modes in [[0, 0], [0, 1], [1, 0], [1, 1]] {
            let page = without_key([0x20, 0x00, modes[0], modes[1]]);
            assert_eq!(faulty_byte(&with_list(page), &record, 3), Some(20));
        }
    }
}

#[test]
fn supplemental_keys() {
    let record = after_p2().record;
    let sdk = |changes: &[(usize, u8)]| k_but(&[&[(5, 8)], changes].concat());
    assert_eq!(faulty_byte(&sdk(&[(4, 0x40), (7, 3)]), &record, 3), Some(4));
    assert_eq!(faulty_byte(&sdk(&[(4, 0x40)]), &record, 3), Some(4));
    assert_eq!(faulty_byte(&sdk(&[]), &record, 4), Some(4));
    assert_eq!(faulty_byte(&sdk(&[(7, 3)]), &record, 3), Some(7));
    assert_eq!(faulty_byte(&sdk(&[(7, 3), (8, 9)]), &record, 3), Some(7));
    assert_eq!(faulty_byte(&sdk(&[(19, 31)]), &record, 3), Some(18));
    assert_eq!(faulty_byte(&sdk(&[(8, 9), (19, 31)]), &record, 3), Some(8));
    for mode in [0, 1] {
        let mut record = record.clone();
        record.places[1].decryption = mode;
        assert_eq!(faulty_byte(&sdk(&[(7, mode)]), &record, 3), Some(7));
        assert_eq!(faulty_byte(&sdk(&[(7, 2)]), &record, 3), Some(7));
        // CEEM isn't looked at with SDK 1.
        assert_eq!(faulty_byte(&sdk(&[(5, 0xC8), (7, 0)]), &record, 3), Some(7));
    }
}

#[test]
fn fields_of_the_status_page() {
    for (changes, byte) in [
        (&[(1, 0x21)][..], 0),
        (&[(0, 0x20)], 0),
        (&[(1, 0x10), (4, 0x63)], 0),
        (&[(4, 0x61)], 4),
        (&[(4, 0x23)], 4),
        (&[(4, 0x29)], 4),
        (&[(4, 0x31)], 4),
        (&[(5, 3)], 5),
        (&[(6, 4)], 6),
        (&[(7, 2)], 7),
        (&[(12, 0x08)], 12),
        (&[(12, 0x40)], 12),
        (&[(12, 0x80)], 12),
        (&[(4, 0x63), (5, 3), (12, 0xFF)], 4),
        (&[(7, 2), (6, 4), (23, 1)], 6),
        (&[(12, 0x10), (13, 1)], 12),
    ] {
        assert_eq!(faulty_status_byte(&status_page(changes, &[])), Some(byte), "{changes:?}");
        assert_eq!(faulty_status_byte(&status_page(changes, &[2])), Some(byte), "{changes:?}");
    }
}

#[test]
fn a_wrong_length_has_no_faulty_byte() {
    assert_eq!(faulty_byte(&k()[..51], &Record::power_on(), 3), None);
    assert_eq!(faulty_byte(&k_but(&[(3, 0x2F), (0, 1)]), &Record::power_on(), 3), None);
    assert_eq!(faulty_status_byte(&[0xFF; 23]), None);
    assert_eq!(faulty_status_byte(&[0xFF; 24]), None);
}

/// The bytes of a fresh drive's reply.
fn reply(command: &Command) -> Vec<u8> {
    let mut bytes = Vec::new();
    Drive::new().answer(command).give(&mut bytes);
    bytes
}

#[test]
fn the_stream_gives_two_bytes_with_answer_8_alone() {
    assert_eq!(reply(&security_out(3, k_but(&[(19, 31)]))), [8, 5, 0x26, 0, 0, 2, 0, 18]);
    assert_eq!(reply(&security_out(3, k_but(&[(0, 1)]))), [8, 5, 0x26, 0, 0, 2, 0, 0]);
    assert_eq!(reply(&security_out(3, k_with(&descriptor(0, &[1; 33])))), [8, 5, 0x26, 0, 0, 2, 0, 54]);
    assert_eq!(reply(&read_status(status_page(&[], &[0, 1]))), [8, 5, 0x26, 0, 0, 2, 0, 24]);
    assert_eq!(reply(&security_out(3, k()[..51].to_vec())), [7, 5, 0x1A, 0, 0, 0]);
    assert_eq!(reply(&read_status(vec![0xFF; 24])), [7, 5, 0x1A, 0, 0, 0]);
    assert_eq!(reply(&security_out(16, k_but(&[(0, 1)]))), [2, 0, 0, 0, 0, 0]);
}

#[test]
fn an_event_of_a_batch_has_four_bytes_as_before() {
    let out = [2, 3, 0x00, 0x10, 0, 0, 0, 52];
    let data = [&[0, 8][..], &out, &k_but(&[(17, 1)])].concat();
    assert_eq!(reply(&batch(data, 6)), [0, 0, 0, 0, 0, 6, 8, 5, 0x26, 0, 0xA5, 0xA5]);
}

#[test]
fn no_other_byte_is_told() {
    let mut numbers = Numbers::new(6);
    let mut told = 0;
    for _ in 0..20_000 {
        let list = random_list(&mut numbers);
        for (command, list_start, page, edits) in [
            (security_out(3, k_with(&list)), 52, PageKind::Set, Edit::of_set_page()),
            (read_status(status_page(&[], &list)), 24, PageKind::Status, Edit::of_status_page()),
        ] {
            let mut command = command;
            random_damage(&mut command.data, &edits, list_start, &mut numbers);
            let mut drive = Drive::with(mixed_without_pending());
            if let Some(byte) = drive.answer(&command).faulty_byte() {
                assert!(bytes_told(page).contains(&byte), "{byte} of {:02X?}", command.data);
                let lowest = RuleOfPage::broken_by(drive.account()).iter().map(|&(_, byte)| byte).min();
                assert_eq!(lowest, Some(byte));
                told += 1;
            }
        }
    }
    assert!(told > 5_000);
}
