//! The events of 01 over a record with every place used, and who is flagged.

use reference::answer::Refused;
use reference::codes::scope;
use reference::comparison::record_builder::full;
use reference::controller::Controller;
use reference::record::Record;

/// Nexuses 0 to 3 own places 1 to 4, ALL nexus 9 owns place 0; the even places have every CK bit.
fn given() -> Controller {
    let mut record = full([0, 1, 2, 3]);
    for place in [0, 2, 4] {
        let set = &mut record.places[place];
        (set.ckod, set.ckorp, set.ckorl) = (true, true, true);
    }
    Controller::with(record)
}

/// The places still used.
fn used(record: &Record) -> Vec<usize> {
    (0..5).filter(|&place| record.places[place].is_used()).collect()
}

/// The nexuses flagged, first "another nexus", then "vendor event".
fn flagged(record: &Record) -> (Vec<usize>, Vec<usize>) {
    let nexuses = || 0..16;
    (
        nexuses().filter(|&nexus| record.nexuses[nexus].changed_by_another_nexus).collect(),
        nexuses().filter(|&nexus| record.nexuses[nexus].changed_by_vendor_event).collect(),
    )
}

/// Every nexus but those.
fn all_but(those: &[usize]) -> Vec<usize> {
    (0..16).filter(|nexus| !those.contains(nexus)).collect()
}

#[test]
fn demount_releases_ckod_sets() {
    let mut controller = given();
    assert_eq!(controller.demount(), Ok(()));
    assert_eq!(used(&controller.record), [1, 3]);
    // Places in rising order draw 6, 7 and 8.
    assert_eq!([0, 2, 4].map(|place| controller.record.places[place].number), [6, 7, 8]);
    assert_eq!(controller.record.nexuses[9].scope, scope::PUBLIC);
    assert_eq!(flagged(&controller.record), (vec![], all_but(&[0, 2])));
}

#[test]
fn nexus_reservation_loss_releases_its_local_set() {
    let mut controller = given();
    assert_eq!(controller.nexus_reservation_loss(0), Ok(()));
    assert_eq!(controller.nexus_reservation_loss(9), Ok(()));
    assert_eq!(controller.record, given().record);
    assert_eq!(controller.nexus_reservation_loss(1), Ok(()));
    assert_eq!(used(&controller.record), [0, 1, 3, 4]);
    assert_eq!(flagged(&controller.record), (vec![], vec![1]));
}

#[test]
fn device_reservation_loss_releases_place_0() {
    let mut controller = given();
    assert_eq!(controller.device_reservation_loss(), Ok(()));
    assert_eq!(used(&controller.record), [1, 2, 3, 4]);
    assert_eq!(flagged(&controller.record), (vec![], all_but(&[0, 1, 2, 3])));
}

#[test]
fn preempt_releases_ckorp_sets_and_spares_the_preemptor() {
    let mut controller = given();
    assert_eq!(controller.preempt(1), Ok(()));
    assert_eq!(used(&controller.record), [1, 3]);
    assert_eq!(flagged(&controller.record), (all_but(&[0, 1, 2]), vec![]));
}

#[test]
fn microcode_releases_all() {
    let mut controller = given();
    assert_eq!(controller.microcode(), Ok(()));
    assert_eq!(used(&controller.record), []);
    assert_eq!(controller.record.counter, 10);
    assert_eq!(flagged(&controller.record), (vec![], all_but(&[])));
}

#[test]
fn vendor_release_releases_the_named_place_once() {
    let mut controller = given();
    assert_eq!(controller.vendor_release(3), Ok(()));
    assert_eq!(used(&controller.record), [0, 1, 2, 4]);
    assert_eq!(flagged(&controller.record), (vec![], vec![2]));
    let before = controller.record.clone();
    assert_eq!(controller.vendor_release(3), Ok(()));
    assert_eq!(controller.record, before);
}

#[test]
fn lock_and_saved_number_stay_at_release() {
    let mut controller = given();
    controller.record.nexuses[1].lock = true;
    controller.record.nexuses[1].saved_at_lock = 3;
    controller.demount().expect("demount is done");
    let nexus = controller.record.nexuses[1];
    assert_eq!((nexus.scope, nexus.lock, nexus.saved_at_lock, nexus.last_local), (scope::PUBLIC, true, 3, 3));
    controller.record.nexuses[1].changed_by_vendor_event = false;
    assert_eq!(controller.write(1, true), Err(Refused::KeyInstanceChanged));
}

#[test]
fn logical_unit_reset_clears_marks_and_flags_only() {
    let mut controller = given();
    controller.demount().expect("demount is done");
    let mut expected = controller.record.clone();
    controller.logical_unit_reset().expect("reset is done");
    for nexus in &mut expected.nexuses {
        nexus.registered = false;
        nexus.changed_by_another_nexus = false;
        nexus.changed_by_vendor_event = false;
    }
    assert_eq!(controller.record, expected);
}

#[test]
fn the_counter_wraps() {
    let mut controller = given();
    controller.record.counter = u32::MAX - 1;
    controller.demount().expect("demount is done");
    assert_eq!([0, 2, 4].map(|place| controller.record.places[place].number), [u32::MAX, 0, 1]);
}

#[test]
fn a_number_that_comes_out_the_same_flags_nobody() {
    let mut controller = given();
    controller.record.counter = 0;
    controller.vendor_release(0).expect("the place is released");
    assert_eq!(controller.record.places[0].number, 1);
    assert_eq!(flagged(&controller.record), (vec![], vec![]));
}

#[test]
fn nobody_unregistered_is_flagged() {
    let mut controller = given();
    controller.logical_unit_reset().expect("reset is done");
    controller.microcode().expect("microcode is done");
    assert_eq!(flagged(&controller.record), (vec![], vec![]));
}
