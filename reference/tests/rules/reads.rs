//! The read decision of 02, request 1.

use crate::given::{after_p2, k, k_but, send, without_key};
use reference::answer::Refused;
use reference::calls::{ReadAs, ReadBlock};
use reference::comparison::record_builder::{full, mixed, settle, supply};
use reference::controller::Controller;
use reference::record::Record;

/// What a read comes to: as what it passes, or an answer number.
type Decision = Result<ReadAs, u8>;

const PLAIN: Decision = Ok(ReadAs::Plain);
const RAW: Decision = Ok(ReadAs::Raw);
const DECRYPTED: Decision = Ok(ReadAs::Decrypted);

/// Decryption mode and block kind; then the decision where no key opened the block and where one did.
const DECISIONS: [(u8, u8, Decision, Decision); 12] = [
    (0, 0, PLAIN, PLAIN),
    (0, 1, Err(15), Err(15)),
    (0, 2, Err(15), Err(15)),
    (1, 0, PLAIN, PLAIN),
    (1, 1, RAW, RAW),
    (1, 2, RAW, RAW),
    (2, 0, Err(16), Err(16)),
    (2, 1, Err(17), DECRYPTED),
    (2, 2, Err(15), Err(15)),
    (3, 0, PLAIN, PLAIN),
    (3, 1, Err(17), DECRYPTED),
    (3, 2, Err(15), Err(15)),
];

/// Every mixture of encryption and decryption mode, and whether a set with them holds a main key.
const MAIN_KEYS: [(u8, u8, bool); 12] = [
    (0, 0, false),
    (1, 0, false),
    (2, 0, true),
    (0, 1, false),
    (1, 1, false),
    (2, 1, true),
    (0, 2, true),
    (1, 2, true),
    (2, 2, true),
    (0, 3, true),
    (1, 3, true),
    (2, 3, true),
];

/// A read's decision without its place.
fn decision(controller: &mut Controller, nexus: u8, block_kind: u8, key: u8) -> Decision {
    controller.read(nexus, block_kind, key).map(|block| block.as_what).map_err(Refused::number)
}

/// A controller where LOCAL nexus 3 has such a set in place 2.
fn given(encryption: u8, decryption: u8, supplemental_keys: usize) -> Controller {
    let mut record = Record::power_on();
    settle(&mut record, 2, 3, encryption, decryption, 7);
    supply(&mut record.places[2], supplemental_keys);
    Controller::with(record)
}

#[test]
fn the_whole_table() {
    for (encryption, mode, main_key) in MAIN_KEYS {
        for count in 0..=4 {
            let mut controller = given(encryption, mode, count);
            let before = controller.record.clone();
            for key in 0..=255u8 {
                let taken = key == 255 || main_key && usize::from(key) <= count;
                for (_, block_kind, without, with) in DECISIONS.into_iter().filter(|row| row.0 == mode) {
                    let expected = match (taken, key) {
                        (false, _) => Err(14),
                        (true, 255) => without,
                        (true, _) => with,
                    };
                    let case = (encryption, mode, count, block_kind, key);
                    assert_eq!(decision(&mut controller, 3, block_kind, key), expected, "{case:?}");
                }
                for block_kind in [3, 4, 127, 128, 254, 255] {
                    assert_eq!(decision(&mut controller, 3, block_kind, key), Err(14));
                }
            }
            assert_eq!(controller.record, before);
        }
    }
}

#[test]
fn every_block_kind_above_2() {
    for block_kind in 3..=255 {
        for mode in 0..4 {
            assert_eq!(decision(&mut given(2, mode, 4), 3, block_kind, 255), Err(14));
            assert_eq!(decision(&mut given(2, mode, 4), 3, block_kind, 0), Err(14));
        }
    }
}

#[test]
fn the_default_set_passes_plain_and_has_no_key() {
    let mut controller = Controller::power_on();
    assert_eq!(controller.read(3, 0, 255), Ok(ReadBlock { as_what: ReadAs::Plain, place: 0 }));
    assert_eq!(decision(&mut controller, 3, 1, 255), Err(15));
    assert_eq!(decision(&mut controller, 3, 2, 255), Err(15));
    assert_eq!(decision(&mut controller, 3, 0, 0), Err(14));
}

#[test]
fn a_main_key_is_held_by_modes_not_by_bytes() {
    let mut controller = given(0, 2, 1);
    controller.record.places[2].key = [0; 32];
    controller.record.places[2].supplemental_keys = [[0; 32]; 4];
    assert_eq!(decision(&mut controller, 3, 1, 0), DECRYPTED);
    assert_eq!(decision(&mut controller, 3, 1, 1), DECRYPTED);
    assert_eq!(decision(&mut controller, 3, 1, 2), Err(14));
    let mut controller = given(1, 1, 4);
    assert_ne!(controller.record.places[2].key, [0; 32]);
    assert_eq!(decision(&mut controller, 3, 1, 0), Err(14));
    assert_eq!(decision(&mut controller, 3, 1, 1), Err(14));
    assert_eq!(decision(&mut controller, 3, 1, 255), RAW);
}

#[test]
fn what_a_read_does_not_ask_for() {
    for bits in 0..64u8 {
        let mut controller = given(2, 1, 0);
        let set = &mut controller.record.places[2];
        (set.rdmd, set.ckod) = (bits & 1 != 0, bits & 2 != 0);
        (set.ckorp, set.ckorl) = (bits & 4 != 0, bits & 8 != 0);
        set.ceem = bits >> 4;
        assert_eq!(decision(&mut controller, 3, 2, 255), RAW);
        controller.record.places[2].decryption = 2;
        assert_eq!(decision(&mut controller, 3, 1, 0), DECRYPTED);
    }
}

#[test]
fn the_place_is_that_of_the_set_in_use() {
    // ALL nexus 9 owns place 0, 0 and 15 are PUBLIC.
    let mut controller = Controller::with(full([7, 6, 5, 4]));
    for (nexus, place) in [(7, 1), (6, 2), (5, 3), (4, 4), (9, 0), (0, 0), (15, 0)] {
        let expected = ReadBlock { as_what: ReadAs::Decrypted, place };
        assert_eq!(controller.read(nexus, 1, 0), Ok(expected));
    }
    // Places 1 to 4 are DECRYPT, place 0 is MIXED.
    assert_eq!(decision(&mut controller, 7, 0, 255), Err(16));
    assert_eq!(decision(&mut controller, 9, 0, 255), PLAIN);
    assert_eq!(decision(&mut controller, 0, 0, 255), PLAIN);
}

#[test]
fn check_1_comes_before_2() {
    let mut record = mixed();
    record.nexuses[3].scope = 0;
    record.nexuses[4].changed_by_vendor_event = true;
    let mut controller = Controller::with(record.clone());
    for (nexus, block_kind, key) in [(16, 0, 255), (255, 9, 9), (4, 0, 255), (0, 3, 0), (0, 0, 255)] {
        assert_eq!(decision(&mut controller, nexus, block_kind, key), Err(1));
    }
    assert_eq!(controller.record, record);
}

#[test]
fn check_2_comes_before_3() {
    let mut record = mixed();
    for nexus in &mut record.nexuses {
        nexus.changed_by_another_nexus = true;
    }
    let mut controller = Controller::with(record.clone());
    for nexus in 16..=255 {
        assert_eq!(decision(&mut controller, nexus, 0, 255), Err(2));
        assert_eq!(decision(&mut controller, nexus, 3, 9), Err(2));
    }
    assert_eq!(controller.record, record);
}

#[test]
fn checks_3_and_4_come_before_14_to_17_and_clear_their_flag_only() {
    for (mode, block_kind, key, expected) in [
        (2, 3, 255, Err(14)),
        (2, 1, 5, Err(14)),
        (0, 1, 255, Err(15)),
        (3, 2, 0, Err(15)),
        (2, 0, 255, Err(16)),
        (3, 1, 255, Err(17)),
        (1, 0, 255, PLAIN),
        (1, 1, 255, RAW),
        (2, 1, 4, DECRYPTED),
    ] {
        let mut controller = given(2, mode, 4);
        let decided = controller.record.clone();
        controller.record.nexuses[3].changed_by_vendor_event = true;
        let one_flag = controller.record.clone();
        controller.record.nexuses[3].changed_by_another_nexus = true;
        assert_eq!(decision(&mut controller, 3, block_kind, key), Err(3));
        assert_eq!(controller.record, one_flag);
        assert_eq!(decision(&mut controller, 3, block_kind, key), Err(4));
        assert_eq!(controller.record, decided);
        assert_eq!(decision(&mut controller, 3, block_kind, key), expected);
        assert_eq!(controller.record, decided);
    }
}

#[test]
fn a_pending_flag_of_another_nexus_is_left() {
    let mut controller = Controller::with(mixed());
    assert_eq!(decision(&mut controller, 3, 1, 0), DECRYPTED);
    assert_eq!(controller.record, mixed());
}

#[test]
fn check_14_comes_before_15_to_17() {
    for (mode, block_kind, key) in [(0, 1, 1), (0, 2, 254), (3, 2, 1), (2, 0, 1), (2, 1, 1), (0, 3, 255)] {
        assert_eq!(decision(&mut given(2, mode, 0), 3, block_kind, key), Err(14));
    }
}

#[test]
fn the_lock_does_not_stop_reads() {
    for (encryption, mode, _) in MAIN_KEYS {
        for (block_kind, key) in [(0, 255), (1, 255), (1, 0), (2, 255), (3, 255)] {
            let unlocked = decision(&mut given(encryption, mode, 0), 3, block_kind, key);
            for saved in [6, 7, 8] {
                let mut controller = given(encryption, mode, 0);
                controller.record.nexuses[3].lock = true;
                controller.record.nexuses[3].saved_at_lock = saved;
                let before = controller.record.clone();
                assert_eq!(decision(&mut controller, 3, block_kind, key), unlocked);
                assert_eq!(controller.record, before);
            }
        }
    }
}

#[test]
fn the_locked_nexus_of_p7_reads_though_its_write_is_stopped() {
    let mut controller = after_p2();
    assert_eq!(decision(&mut controller, 3, 1, 0), DECRYPTED);
    controller.demount().expect("demount is done");
    assert_eq!(decision(&mut controller, 3, 3, 9), Err(4));
    assert_eq!(controller.write(3, true), Err(Refused::KeyInstanceChanged));
    assert_eq!(controller.read(3, 0, 255), Ok(ReadBlock { as_what: ReadAs::Plain, place: 0 }));
    assert_eq!(decision(&mut controller, 3, 1, 255), Err(15));
    assert_eq!(decision(&mut controller, 3, 1, 0), Err(14));
    assert_eq!(controller.write(3, true), Err(Refused::KeyInstanceChanged));
}

#[test]
fn the_locked_nexus_of_p8_reads_by_the_shared_set() {
    let mut controller = Controller::power_on();
    send(&mut controller, 5, &k_but(&[(4, 0x01)])).expect("the PUBLIC page is taken");
    send(&mut controller, 6, &k_but(&[(4, 0x40)])).expect("the ALL page is taken");
    assert_eq!(decision(&mut controller, 5, 1, 0), Err(3));
    assert_eq!(controller.write(5, true), Err(Refused::KeyInstanceChanged));
    assert_eq!(controller.read(5, 1, 0), Ok(ReadBlock { as_what: ReadAs::Decrypted, place: 0 }));
}

#[test]
fn an_evicted_nexus_reads_by_the_default_set() {
    let mut controller = Controller::power_on();
    for nexus in 0..=4 {
        send(&mut controller, nexus, &k_but(&[(4, 0x20)])).expect("K is taken");
    }
    assert_eq!(decision(&mut controller, 0, 1, 0), Err(3));
    assert_eq!(decision(&mut controller, 0, 1, 0), Err(14));
    assert_eq!(controller.read(0, 0, 255), Ok(ReadBlock { as_what: ReadAs::Plain, place: 0 }));
    assert_eq!(controller.read(4, 1, 0), Ok(ReadBlock { as_what: ReadAs::Decrypted, place: 1 }));
}

#[test]
fn supplemental_keys_are_taken_once_their_page_is() {
    let mut controller = after_p2();
    for count in 1..=4 {
        assert_eq!(decision(&mut controller, 3, 1, count), Err(14));
        send(&mut controller, 3, &k_but(&[(5, 0x08)])).expect("the supplemental key is taken");
        assert_eq!(decision(&mut controller, 3, 1, count), DECRYPTED);
    }
    assert_eq!(send(&mut controller, 3, &k_but(&[(5, 0x08)])), Err(Refused::FifthSupplementalKey));
    assert_eq!(decision(&mut controller, 3, 1, 5), Err(14));
    send(&mut controller, 3, &k()).expect("K is taken");
    assert_eq!(decision(&mut controller, 3, 1, 0), DECRYPTED);
    assert_eq!(decision(&mut controller, 3, 1, 1), Err(14));
}

#[test]
fn raw_without_encrypt_has_no_main_key() {
    let mut controller = Controller::power_on();
    send(&mut controller, 3, &without_key([0x20, 0, 0, 1])).expect("the RAW page is taken");
    assert_eq!(decision(&mut controller, 3, 1, 0), Err(14));
    assert_eq!(decision(&mut controller, 3, 1, 255), RAW);
    send(&mut controller, 3, &k_but(&[(7, 1)])).expect("the RAW page is taken");
    assert_eq!(decision(&mut controller, 3, 1, 0), RAW);
}

#[test]
fn a_read_registers_nobody() {
    let mut controller = Controller::power_on();
    controller.read(3, 0, 255).expect("the read is plain");
    controller.read(3, 1, 255).expect_err("the block is encrypted");
    assert_eq!(controller.record, Record::power_on());
}
