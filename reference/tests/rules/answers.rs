//! Each answer number of 01's table, its sense and its "Record change"; and the order of the checks. Answers 14 to
//! 17 are read's own.

use crate::given::{after_p2, k, k_but, send, PROTOCOL, SET_PAGE};
use reference::answer::{Refused, NO_SENSE};
use reference::controller::Controller;
use reference::record::Record;

/// Whether a refused call changed nothing but the mark of the nexus.
fn registers_only(controller: &Controller, before: &Record, nexus: usize) {
    let mut expected = before.clone();
    expected.nexuses[nexus].registered = true;
    assert_eq!(controller.record, expected);
}

#[test]
fn numbers_and_senses() {
    let table = [
        (1, NO_SENSE),
        (2, NO_SENSE),
        (3, [0x6, 0x2A, 0x11]),
        (4, [0x6, 0x2A, 0x12]),
        (5, [0x5, 0x24, 0x00]),
        (6, [0x5, 0x24, 0x00]),
        (7, [0x5, 0x1A, 0x00]),
        (8, [0x5, 0x26, 0x00]),
        (9, [0x5, 0x55, 0x08]),
        (10, [0x5, 0x55, 0x03]),
        (11, [0x7, 0x2A, 0x13]),
        (12, [0x7, 0x74, 0x07]),
        (13, NO_SENSE),
        (14, NO_SENSE),
        (15, [0x7, 0x74, 0x01]),
        (16, [0x7, 0x74, 0x02]),
        (17, [0x7, 0x74, 0x03]),
    ];
    assert_eq!(table.len(), Refused::EVERY.len());
    for ((number, sense), refused) in table.into_iter().zip(Refused::EVERY) {
        assert_eq!((refused.number(), refused.sense()), (number, sense));
    }
}

#[test]
fn answer_0_done() {
    assert_eq!(send(&mut Controller::power_on(), 3, &k()), Ok(()));
}

#[test]
fn answer_1_comes_first_and_changes_nothing() {
    let mut record = Record::power_on();
    record.nexuses[3].scope = 1;
    record.nexuses[3].changed_by_another_nexus = true;
    let mut controller = Controller::with(record.clone());
    let refused = Refused::RecordNotWellFormed;
    assert_eq!(controller.security_in(99, 0, 0x99, &mut []), Err(refused));
    assert_eq!(controller.security_out(99, 0, 0x99, &[]), Err(refused));
    assert_eq!(controller.write(99, true), Err(refused));
    assert_eq!(controller.read(99, 3, 99), Err(refused));
    assert_eq!(controller.logical_unit_reset(), Err(refused));
    assert_eq!(controller.demount(), Err(refused));
    assert_eq!(controller.nexus_reservation_loss(99), Err(refused));
    assert_eq!(controller.device_reservation_loss(), Err(refused));
    assert_eq!(controller.preempt(99), Err(refused));
    assert_eq!(controller.microcode(), Err(refused));
    assert_eq!(controller.vendor_release(99), Err(refused));
    assert_eq!(controller.serves(99), Err(refused));
    assert_eq!(controller.record, record);
}

#[test]
fn answer_2_for_each_call_with_a_nexus() {
    let mut controller = after_p2();
    let before = controller.record.clone();
    assert_eq!(controller.security_in(16, 0, 0x99, &mut []), Err(Refused::NexusAbove15));
    assert_eq!(controller.security_out(255, 0, 0x99, &[]), Err(Refused::NexusAbove15));
    assert_eq!(controller.write(16, true), Err(Refused::NexusAbove15));
    assert_eq!(controller.read(16, 3, 99), Err(Refused::NexusAbove15));
    assert_eq!(controller.nexus_reservation_loss(16), Err(Refused::NexusAbove15));
    assert_eq!(controller.preempt(16), Err(Refused::NexusAbove15));
    assert_eq!(controller.record, before);
}

#[test]
fn answers_3_and_4_clear_their_flag_only() {
    let mut record = Record::power_on();
    record.nexuses[7].changed_by_another_nexus = true;
    record.nexuses[7].changed_by_vendor_event = true;
    let mut controller = Controller::with(record.clone());
    assert_eq!(controller.security_out(7, 0, 0x99, &[]), Err(Refused::ChangedByAnotherNexus));
    record.nexuses[7].changed_by_another_nexus = false;
    assert_eq!(controller.record, record);
    assert_eq!(controller.security_in(7, 0, 0x99, &mut []), Err(Refused::ChangedByVendorEvent));
    record.nexuses[7].changed_by_vendor_event = false;
    assert_eq!(controller.record, record);
    assert_eq!(controller.security_in(7, 0, 0x99, &mut []), Err(Refused::ProtocolNot20));
}

#[test]
fn answer_5_changes_nothing() {
    let mut controller = Controller::power_on();
    assert_eq!(controller.security_in(3, 0x21, 0x0099, &mut []), Err(Refused::ProtocolNot20));
    assert_eq!(controller.security_out(3, 0x00, 0x0099, &[]), Err(Refused::ProtocolNot20));
    assert_eq!(controller.record, Record::power_on());
}

#[test]
fn answer_6_registers() {
    let mut controller = Controller::power_on();
    assert_eq!(controller.security_in(3, PROTOCOL, 0x0010, &mut []), Err(Refused::PageNotSupported));
    registers_only(&controller, &Record::power_on(), 3);
    let mut controller = Controller::power_on();
    assert_eq!(controller.security_out(3, PROTOCOL, 0x0011, &[]), Err(Refused::PageNotSupported));
    registers_only(&controller, &Record::power_on(), 3);
}

#[test]
fn answer_7_registers_and_comes_before_8() {
    let mut controller = Controller::power_on();
    assert_eq!(send(&mut controller, 3, &k_but(&[(3, 0x31), (4, 0xFF)])), Err(Refused::PageLengthWrong));
    registers_only(&controller, &Record::power_on(), 3);
}

#[test]
fn answer_8_registers() {
    let mut controller = Controller::power_on();
    assert_eq!(send(&mut controller, 3, &k_but(&[(8, 0)])), Err(Refused::FieldWrong { byte: 8 }));
    registers_only(&controller, &Record::power_on(), 3);
}

#[test]
fn answer_9_registers_and_comes_after_8() {
    let mut controller = after_p2();
    controller.record.places[1].supplemental_count = 4;
    controller.record.nexuses[3].registered = false;
    let before = controller.record.clone();
    let refused = Refused::FieldWrong { byte: 17 };
    assert_eq!(send(&mut controller, 3, &k_but(&[(5, 0x08), (17, 1)])), Err(refused));
    controller.record = before.clone();
    assert_eq!(send(&mut controller, 3, &k_but(&[(5, 0x08)])), Err(Refused::FifthSupplementalKey));
    registers_only(&controller, &before, 3);
}

#[test]
fn answer_10_registers() {
    let mut controller = Controller::power_on();
    for nexus in 0..4 {
        send(&mut controller, nexus, &k()).expect("K is taken");
    }
    let before = controller.record.clone();
    assert_eq!(send(&mut controller, 9, &k_but(&[(4, 0x20)])), Err(Refused::NoPlaceForLocalSet));
    registers_only(&controller, &before, 9);
}

#[test]
fn answers_11_and_12_change_nothing() {
    let mut controller = after_p2();
    controller.record.nexuses[3].registered = false;
    let before = controller.record.clone();
    assert_eq!(controller.write(3, false), Err(Refused::ParametersNotUsable));
    assert_eq!(controller.record, before);
    controller.record.nexuses[3].saved_at_lock = 0;
    let before = controller.record.clone();
    assert_eq!(controller.write(3, false), Err(Refused::KeyInstanceChanged));
    assert_eq!(controller.record, before);
}

#[test]
fn answer_13_changes_nothing() {
    let mut controller = after_p2();
    let before = controller.record.clone();
    assert_eq!(controller.vendor_release(5), Err(Refused::PlaceAbove4));
    assert_eq!(controller.vendor_release(0x0101), Err(Refused::PlaceAbove4));
    assert_eq!(controller.serves(5), Err(Refused::PlaceAbove4));
    assert_eq!(controller.serves(0x0101), Err(Refused::PlaceAbove4));
    assert_eq!(controller.record, before);
}

#[test]
fn a_write_registers_nobody() {
    let mut controller = Controller::power_on();
    controller.write(3, true).expect("the write is clear");
    assert_eq!(controller.record, Record::power_on());
}

#[test]
fn a_nexus_is_registered_by_a_page_that_is_taken() {
    let mut controller = Controller::power_on();
    controller.security_out(3, PROTOCOL, SET_PAGE, &k()).expect("K is taken");
    assert!(controller.record.nexuses[3].registered);
}
