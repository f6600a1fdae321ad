//! 02, request 2: CEEM 10b or 11b with decryption DISABLE.

use crate::given::{
    after_p2, broken, faulty_byte, k_but, k_with, send, status, without_key, PROTOCOL, SET_PAGE,
};
use reference::answer::Refused;
use reference::codes::scope;
use reference::comparison::record_builder::{settle, settle_all, supply};
use reference::controller::Controller;
use reference::record::Record;
use reference::set_page::PageRule;
use reference::status_page;
use reference::well_formed::is_well_formed;

/// CEEM and decryption mode, and whether LOCAL and ALL with SDK 0 take them.
const PAIRS: [(u8, u8, bool); 16] = [
    (0b00, 0, true),
    (0b00, 1, true),
    (0b00, 2, true),
    (0b00, 3, true),
    (0b01, 0, true),
    (0b01, 1, true),
    (0b01, 2, true),
    (0b01, 3, true),
    (0b10, 0, false),
    (0b10, 1, true),
    (0b10, 2, true),
    (0b10, 3, true),
    (0b11, 0, false),
    (0b11, 1, true),
    (0b11, 2, true),
    (0b11, 3, true),
];

/// The lab's page: ALL, CEEM 10b, both modes DISABLE, no key.
fn labs_page() -> Vec<u8> {
    without_key([0x40, 0x80, 0, 0])
}

/// A page of a scope with these modes and this byte 5, with a key as the modes ask.
fn page(scope: u8, byte_5: u8, encryption: u8, decryption: u8) -> Vec<u8> {
    if encryption == 2 || decryption >= 2 {
        k_but(&[(4, scope << 5), (5, byte_5), (6, encryption), (7, decryption)])
    } else {
        without_key([scope << 5, byte_5, encryption, decryption])
    }
}

/// The record after power-on with a registered nexus.
fn registered(nexus: usize) -> Record {
    let mut record = Record::power_on();
    record.nexuses[nexus].registered = true;
    record
}

#[test]
fn every_pair_under_each_encryption_mode() {
    for (scope, place) in [(scope::LOCAL, 1), (scope::ALL, 0)] {
        for encryption in 0..3 {
            for (ceem, decryption, taken) in PAIRS {
                let page = page(scope, ceem << 6, encryption, decryption);
                let mut controller = Controller::power_on();
                let answer = send(&mut controller, 3, &page);
                if taken {
                    assert_eq!(answer, Ok(()));
                    let set = &controller.record.places[place];
                    assert_eq!((set.scope, set.ceem), (scope, ceem));
                    assert_eq!((set.encryption, set.decryption), (encryption, decryption));
                } else {
                    assert_eq!(answer, Err(Refused::FieldWrong { byte: 5 }));
                    assert_eq!(controller.record, registered(3));
                    assert_eq!(faulty_byte(&page, &Record::power_on(), 3), Some(5));
                    assert_eq!(broken(&page, &Record::power_on(), 3), [PageRule::CeemWithDecryptionDisable]);
                }
            }
        }
    }
}

#[test]
fn the_labs_page() {
    let mut controller = Controller::power_on();
    for byte_5 in [0x80, 0xC0, 0x87, 0xB0] {
        let page = without_key([0x40, byte_5, 0, 0]);
        assert_eq!(send(&mut controller, 7, &page), Err(Refused::FieldWrong { byte: 5 }));
        assert_eq!(controller.record, registered(7));
        assert_eq!(faulty_byte(&page, &controller.record, 7), Some(5));
    }
    send(&mut controller, 7, &without_key([0x40, 0x40, 0, 0])).expect("CEEM 01b is taken");
    let with_set = controller.record.clone();
    assert_eq!(send(&mut controller, 7, &labs_page()), Err(Refused::FieldWrong { byte: 5 }));
    assert_eq!(controller.record, with_set);
    send(&mut controller, 7, &without_key([0x40, 0x00, 0, 0])).expect("CEEM 00b is taken");
    send(&mut controller, 7, &without_key([0x40, 0x80, 0, 1])).expect("RAW is taken");
}

#[test]
fn with_sdk_1_ceem_is_ignored() {
    for (byte_4, place) in [(0x20, 1), (0x40, 0)] {
        for mode in [2, 3] {
            let mut controller = Controller::power_on();
            send(&mut controller, 3, &k_but(&[(4, byte_4), (7, mode)])).expect("the set is taken");
            let before = controller.record.clone();
            for ceem in 0..4 {
                let key = k_but(&[(4, byte_4), (5, ceem << 6 | 0x08), (7, mode)]);
                assert_eq!(send(&mut controller, 3, &key), Ok(()));
                assert_eq!(controller.record.places[place].supplemental_count, ceem + 1);
                // With DISABLE it is the mode that is refused.
                let disable = k_but(&[(4, byte_4), (5, ceem << 6 | 0x08), (7, 0)]);
                let rules = [PageRule::SupplementalModeIsSetMode, PageRule::SupplementalModeReads];
                assert_eq!(broken(&disable, &before, 3), rules);
                assert_eq!(faulty_byte(&disable, &before, 3), Some(7));
            }
            let fifth = k_but(&[(4, byte_4), (5, 0x88), (7, mode)]);
            assert_eq!(send(&mut controller, 3, &fifth), Err(Refused::FifthSupplementalKey));
        }
    }
}

#[test]
fn the_labs_page_with_sdk_1() {
    let mut page = labs_page();
    page[5] |= 0x08;
    // A PUBLIC nexus: another scope.
    assert_eq!(faulty_byte(&page, &Record::power_on(), 7), Some(4));
    let mut controller = Controller::power_on();
    send(&mut controller, 7, &k_but(&[(4, 0x40)])).expect("the set is taken");
    assert_eq!(send(&mut controller, 7, &page), Err(Refused::FieldWrong { byte: 7 }));
    assert_eq!(faulty_byte(&page, &controller.record, 7), Some(7));
    assert!(!broken(&page, &controller.record, 7).contains(&PageRule::CeemWithDecryptionDisable));
}

#[test]
fn with_public_ceem_is_ignored() {
    for (ceem, decryption, _) in PAIRS {
        for sdk in [0x00, 0x08] {
            let mut controller = Controller::power_on();
            let page = without_key([0x00, ceem << 6 | sdk, 0, decryption]);
            assert_eq!(send(&mut controller, 7, &page), Ok(()));
            assert_eq!(controller.record, registered(7));
        }
    }
}

#[test]
fn byte_5_comes_before_the_bytes_after_it() {
    let record = Record::power_on();
    let changes = [(6, 9), (8, 2), (9, 1), (10, 1), (11, 1), (14, 1), (17, 1), (18, 1), (19, 31)];
    for ceem in [0x80, 0xC0] {
        for change in changes {
            assert_eq!(faulty_byte(&k_but(&[(5, ceem), (7, 0), change]), &record, 3), Some(5));
        }
        assert_eq!(faulty_byte(&k_but(&[&[(5, ceem), (7, 0)], &changes[..]].concat()), &record, 3), Some(5));
        let mut with_list = k_with(&[2, 1, 9]);
        (with_list[5], with_list[7]) = (ceem, 0);
        assert_eq!(faulty_byte(&with_list, &record, 3), Some(5));
    }
}

#[test]
fn bytes_0_and_4_come_before_byte_5() {
    let record = Record::power_on();
    for ceem in [0x80, 0xC0] {
        let faulty = |changes: &[(usize, u8)]| {
            faulty_byte(&k_but(&[&[(5, ceem), (7, 0)], changes].concat()), &record, 3)
        };
        assert_eq!(faulty(&[(0, 1)]), Some(0));
        assert_eq!(faulty(&[(1, 0x11)]), Some(0));
        assert_eq!(faulty(&[(4, 0x22)]), Some(4));
        assert_eq!(faulty(&[(4, 0x60)]), Some(4));
        assert_eq!(faulty(&[(1, 0x11), (4, 0x22)]), Some(0));
        assert_eq!(faulty(&[(3, 0x2F)]), None);
    }
}

#[test]
fn rdmc_points_to_the_same_byte() {
    let record = Record::power_on();
    let both = k_but(&[(5, 0x90), (7, 0)]);
    let rules = [PageRule::RdmcUnderEncrypt, PageRule::CeemWithDecryptionDisable];
    assert_eq!(broken(&both, &record, 3), rules);
    assert_eq!(faulty_byte(&both, &record, 3), Some(5));
    // RDMC is ignored without ENCRYPT, CEEM isn't.
    let without_encrypt = without_key([0x20, 0x90, 1, 0]);
    assert_eq!(broken(&without_encrypt, &record, 3), [PageRule::CeemWithDecryptionDisable]);
}

#[test]
fn the_key_is_asked_for_as_well() {
    let record = Record::power_on();
    let rules = [PageRule::CeemWithDecryptionDisable, PageRule::KeyLength];
    for page in [without_key([0x20, 0x80, 2, 0]), k_but(&[(5, 0x80), (6, 0), (7, 0)])] {
        assert_eq!(broken(&page, &record, 3), rules);
        assert_eq!(faulty_byte(&page, &record, 3), Some(5));
    }
    assert_eq!(faulty_byte(&without_key([0x20, 0x40, 2, 0]), &record, 3), Some(18));
}

#[test]
fn a_mode_out_of_range_is_not_disable() {
    for mode in [4, 0x10, 0x80, 0xFF] {
        let page = k_but(&[(5, 0x80), (7, mode)]);
        assert_eq!(broken(&page, &Record::power_on(), 3), [PageRule::DecryptionMode]);
        assert_eq!(faulty_byte(&page, &Record::power_on(), 3), Some(7));
    }
}

#[test]
fn earem_is_not_asked_of_another_algorithm() {
    let mut page = without_key([0x20, 0x80, 0, 1]);
    page[8] = 2;
    assert_eq!(broken(&page, &Record::power_on(), 3), [PageRule::AlgorithmIndex]);
    assert_eq!(faulty_byte(&page, &Record::power_on(), 3), Some(8));
}

/// A record with a set of decryption DISABLE: nexus 3's in place 2, or ALL nexus 3's in place 0.
fn with_set(place: usize, encryption: u8, ceem: u8) -> Record {
    let mut record = Record::power_on();
    record.counter = 7;
    match place {
        0 => settle_all(&mut record, 3, encryption, 0, 7),
        _ => settle(&mut record, place, 3, encryption, 0, 7),
    }
    let set = &mut record.places[place];
    (set.ceem, set.ckod) = (ceem, true);
    supply(set, 1);
    record
}

/// Every set that no page can bring any more, with the same set of CEEM 01b beside it.
fn held_sets() -> Vec<(Record, Record)> {
    let mut held = Vec::new();
    for place in [0, 2] {
        for encryption in 0..3 {
            let with_ceem = |ceem| with_set(place, encryption, ceem);
            held.extend([2, 3].map(|ceem| (with_ceem(ceem), with_ceem(1))));
        }
    }
    held
}

#[test]
fn a_record_that_holds_such_a_set_is_well_formed() {
    for (record, _) in held_sets() {
        assert!(is_well_formed(&record));
    }
}

#[test]
fn writes_and_reads_for_such_a_set_are_as_before() {
    for (record, other) in held_sets() {
        let (mut controller, mut with_01b) = (Controller::with(record.clone()), Controller::with(other));
        for supported in [true, false] {
            assert_eq!(controller.write(3, supported), with_01b.write(3, supported));
        }
        assert!(controller.write(3, true).is_ok());
        for block_kind in 0..4 {
            for key in [0, 1, 2, 255] {
                assert_eq!(controller.read(3, block_kind, key), with_01b.read(3, block_kind, key));
            }
        }
        assert!(controller.read(3, 0, 255).is_ok());
        assert_eq!(controller.record, record);
    }
}

#[test]
fn the_status_page_tells_such_a_set() {
    for (record, other) in held_sets() {
        let (ceem, place) = (record.selected_set(3).ceem, record.selected_place(3));
        let page = status(&mut Controller::with(record), 3);
        let mut expected = status(&mut Controller::with(other), 3);
        assert_eq!((expected[12], page[12]), (1 << 1, ceem << 1), "place {place}");
        expected[12] = ceem << 1;
        assert_eq!(page, expected);
        let told = status_page::read(&page).expect("the status reader takes it");
        assert_eq!((told.ceems, told.decryption), (ceem, 0));
    }
}

#[test]
fn such_a_set_is_released_and_replaced() {
    for (record, _) in held_sets() {
        let (set, place) = (record.selected_set(3).clone(), record.selected_place(3));
        let mut controller = Controller::with(record.clone());
        controller.demount().expect("demount is done");
        assert!(!controller.record.places[place].is_used());
        let mut controller = Controller::with(record.clone());
        let own = page(set.scope, set.ceem << 6, set.encryption, 0);
        assert_eq!(send(&mut controller, 3, &own), Err(Refused::FieldWrong { byte: 5 }));
        assert_eq!(controller.record.places, record.places);
        let other = page(set.scope, 0x40, set.encryption, 0);
        assert_eq!(send(&mut controller, 3, &other), Ok(()));
        assert_eq!((controller.record.places[place].ceem, controller.record.places[place].number), (1, 8));
    }
}

#[test]
fn a_supplemental_key_for_such_a_set_is_refused_for_its_mode() {
    for (record, other) in held_sets() {
        let byte_4 = record.nexuses[3].scope << 5;
        for ceem in 0..4 {
            for (mode, rules) in [
                (0, &[PageRule::SupplementalModeReads][..]),
                (1, &[PageRule::SupplementalModeIsSetMode, PageRule::SupplementalModeReads]),
                (2, &[PageRule::SupplementalModeIsSetMode]),
                (3, &[PageRule::SupplementalModeIsSetMode]),
            ] {
                let key = k_but(&[(4, byte_4), (5, ceem << 6 | 0x08), (7, mode)]);
                for record in [&record, &other] {
                    assert_eq!(broken(&key, record, 3), rules);
                    assert_eq!(faulty_byte(&key, record, 3), Some(7));
                }
            }
        }
    }
}

#[test]
fn a_refused_page_leaves_set_and_lock() {
    let mut controller = after_p2();
    let before = controller.record.clone();
    for byte_4 in [0x20, 0x21, 0x40] {
        let page = k_but(&[(4, byte_4), (5, 0x84), (7, 0)]);
        assert_eq!(send(&mut controller, 3, &page), Err(Refused::FieldWrong { byte: 5 }));
        assert_eq!(controller.record, before);
    }
}

#[test]
fn answers_5_to_7_come_first_and_10_after() {
    let page = page(scope::LOCAL, 0x80, 0, 0);
    let mut controller = Controller::power_on();
    assert_eq!(controller.security_out(4, 0x21, SET_PAGE, &page), Err(Refused::ProtocolNot20));
    assert_eq!(controller.security_out(4, PROTOCOL, 0x0011, &page), Err(Refused::PageNotSupported));
    assert_eq!(send(&mut controller, 4, &page[..19]), Err(Refused::PageLengthWrong));
    for lock in [0, 1] {
        let mut controller = Controller::power_on();
        for nexus in 0..4 {
            send(&mut controller, nexus, &k_but(&[(4, 0x20 | lock)])).expect("K is taken");
        }
        let mut expected = controller.record.clone();
        expected.nexuses[4].registered = true;
        assert_eq!(send(&mut controller, 4, &page), Err(Refused::FieldWrong { byte: 5 }));
        assert_eq!(controller.record, expected);
    }
}
