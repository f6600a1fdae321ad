//! P1 to P10 of 01, "Proved examples".

use crate::given::{after_p2, descriptor, k, k_but, k_with, send, status};
use reference::answer::Refused;
use reference::calls::{Written, WrittenAs};
use reference::codes::scope;
use reference::controller::Controller;

#[test]
fn p1_status_after_power_on() {
    let mut expected = vec![0x00, 0x20, 0x00, 0x14];
    expected.resize(24, 0);
    assert_eq!(status(&mut Controller::power_on(), 3), expected);
}

#[test]
fn p2_nexus_3_sends_k() {
    let mut controller = after_p2();
    assert_eq!(controller.record.selected_place(3), 1);
    assert_eq!(controller.record.places[1].number, 1);
    let mut expected = vec![0x00, 0x20, 0x00, 0x14, 0x21, 0x02, 0x02, 0x01, 0x00, 0x00, 0x00, 0x01, 0x02];
    expected.resize(24, 0);
    assert_eq!(status(&mut controller, 3), expected);
}

#[test]
fn p3_k_cut_and_with_scope_3() {
    let mut controller = Controller::power_on();
    assert_eq!(send(&mut controller, 3, &k()[..51]), Err(Refused::PageLengthWrong));
    assert_eq!(send(&mut controller, 3, &k_but(&[(4, 0x61)])), Err(Refused::FieldWrong { byte: 4 }));
}

#[test]
fn p4_write_after_p2() {
    let mut controller = after_p2();
    let encrypted = Written { as_what: WrittenAs::Encrypted, place: 1, index: 1 };
    assert_eq!(controller.write(3, true), Ok(encrypted));
    assert_eq!(controller.write(3, false), Err(Refused::ParametersNotUsable));
}

#[test]
fn p5_fifth_unlocked_nexus() {
    let mut controller = Controller::power_on();
    for nexus in 0..=4 {
        send(&mut controller, nexus, &k_but(&[(4, 0x20)])).expect("K is taken");
    }
    assert_eq!(controller.record.selected_place(4), 1);
    assert_eq!(controller.record.places[1].number, 6);
    assert_eq!(controller.record.nexuses[0].scope, scope::PUBLIC);
    assert!(controller.record.nexuses[0].changed_by_another_nexus);
    for nexus in 1..=4 {
        assert!(!controller.record.nexuses[nexus].changed_by_another_nexus);
    }
}

#[test]
fn p6_all_four_locked() {
    let mut controller = Controller::power_on();
    for nexus in 0..=3 {
        send(&mut controller, nexus, &k()).expect("K is taken");
    }
    let mut expected = controller.record.clone();
    assert_eq!(send(&mut controller, 4, &k()), Err(Refused::NoPlaceForLocalSet));
    expected.nexuses[4].registered = true;
    assert_eq!(controller.record, expected);
}

#[test]
fn p7_demount_after_p2() {
    let mut controller = after_p2();
    assert_eq!(controller.demount(), Ok(()));
    assert_eq!(controller.record.counter, 2);
    assert_eq!(controller.record.places[1].number, 2);
    assert_eq!(controller.write(3, true), Err(Refused::ChangedByVendorEvent));
    assert_eq!(controller.write(3, true), Err(Refused::KeyInstanceChanged));
}

#[test]
fn p8_public_lock_and_all() {
    let mut controller = Controller::power_on();
    send(&mut controller, 5, &k_but(&[(4, 0x01)])).expect("the PUBLIC page is taken");
    send(&mut controller, 6, &k_but(&[(4, 0x40)])).expect("the ALL page is taken");
    assert_eq!(controller.write(5, true), Err(Refused::ChangedByAnotherNexus));
    assert_eq!(controller.write(5, true), Err(Refused::KeyInstanceChanged));
}

#[test]
fn p9_supplemental_keys() {
    let mut controller = after_p2();
    for key in 1..=4 {
        let page = k_but(&[(5, 0x08), (20, key)]);
        assert_eq!(send(&mut controller, 3, &page), Ok(()));
        assert!(controller.write(3, true).is_ok());
        assert_eq!(controller.record.places[1].supplemental_count, key);
        assert_eq!(controller.record.places[1].supplemental_keys[usize::from(key) - 1][0], key);
    }
    assert_eq!(send(&mut controller, 3, &k_but(&[(5, 0x08)])), Err(Refused::FifthSupplementalKey));
}

#[test]
fn p10_u_kad_lengths() {
    let mut controller = Controller::power_on();
    assert_eq!(send(&mut controller, 3, &k_with(&descriptor(0, &[7; 32]))), Ok(()));
    assert_eq!(controller.record.places[1].u_kad.bytes, [7; 32]);
    let refused = Err(Refused::FieldWrong { byte: 54 });
    assert_eq!(send(&mut controller, 3, &k_with(&descriptor(0, &[7; 33]))), refused);
    assert_eq!(send(&mut controller, 3, &k_with(&descriptor(0, &[]))), refused);
}
