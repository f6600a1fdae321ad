//! The place of a LOCAL set, over every mixture of places: `-` empty, `u` taken by a nexus with lock 0, `L` by one with lock 1.

use crate::given::{k, k_but, send};
use reference::answer::Refused;
use reference::codes::scope;
use reference::comparison::record_builder::settle;
use reference::controller::Controller;
use reference::record::Record;

/// The owners of places 1 to 4, where they are taken.
const OWNERS: [u8; 4] = [9, 0, 15, 4];
/// A nexus without a place.
const STRANGER: u8 = 7;

/// Every mixture, `----` to `LLLL`.
fn mixtures() -> Vec<String> {
    let mut mixtures = vec![String::new()];
    for _ in OWNERS {
        let longer = |mixture: String| ["-", "u", "L"].map(|state| mixture.clone() + state);
        mixtures = mixtures.into_iter().flat_map(longer).collect();
    }
    mixtures
}

/// The record of a mixture; the counter is at 20, and everyone is registered.
fn record(mixture: &str) -> Record {
    let mut record = Record::power_on();
    record.counter = 20;
    record.nexuses.iter_mut().for_each(|nexus| nexus.registered = true);
    for (at, state) in mixture.chars().enumerate().filter(|&(_, state)| state != '-') {
        let owner = usize::from(OWNERS[at]);
        settle(&mut record, at + 1, owner, 2, 2, 11 + at as u32);
        record.nexuses[owner].lock = state == 'L';
    }
    record
}

/// The nexuses that are flagged.
fn flagged(record: &Record) -> Vec<usize> {
    (0..16).filter(|&nexus| record.nexuses[nexus].changed_by_another_nexus).collect()
}

#[test]
fn a_nexus_without_a_place() {
    for mixture in mixtures() {
        let before = record(&mixture);
        let mut controller = Controller::with(before.clone());
        let answer = send(&mut controller, STRANGER, &k());
        let (place, draws, evicted) = match (mixture.find('-'), mixture.find('u')) {
            (Some(at), _) => (at + 1, 1, None),
            (None, Some(at)) => (at + 1, 2, Some(usize::from(OWNERS[at]))),
            (None, None) => {
                assert_eq!((answer, controller.record), (Err(Refused::NoPlaceForLocalSet), before));
                continue;
            }
        };
        let after = controller.record;
        assert_eq!((answer, after.local_place(usize::from(STRANGER))), (Ok(()), Some(place)), "{mixture}");
        assert_eq!((after.counter, after.places[place].number), (20 + draws, 20 + draws), "{mixture}");
        assert_eq!(flagged(&after), Vec::from_iter(evicted), "{mixture}");
        for other in (1..5).filter(|&other| other != place) {
            assert_eq!(after.places[other], before.places[other], "{mixture}");
        }
        if let Some(evicted) = evicted {
            assert_eq!(after.nexuses[evicted].scope, scope::PUBLIC, "{mixture}");
        }
    }
}

#[test]
fn a_nexus_with_a_place_keeps_it() {
    for mixture in mixtures() {
        for (at, _) in mixture.chars().enumerate().filter(|&(_, state)| state != '-') {
            for byte_4 in [0x20, 0x21] {
                let mut controller = Controller::with(record(&mixture));
                assert_eq!(send(&mut controller, OWNERS[at], &k_but(&[(4, byte_4)])), Ok(()));
                let owner = usize::from(OWNERS[at]);
                assert_eq!(controller.record.local_place(owner), Some(at + 1), "{mixture}");
                assert_eq!(controller.record.places[at + 1].number, 21, "{mixture}");
                assert_eq!(controller.record.nexuses[owner].lock, byte_4 == 0x21, "{mixture}");
                assert!(flagged(&controller.record).is_empty(), "{mixture}");
            }
        }
    }
}

#[test]
fn pages_that_look_for_no_place() {
    for mixture in mixtures() {
        let before = record(&mixture);
        let pages = [(k_but(&[(4, 0x01)]), true), (k_but(&[(4, 0x40)]), true), (k_but(&[(8, 2)]), false)];
        for (page, is_taken) in pages {
            let mut controller = Controller::with(before.clone());
            assert_eq!(send(&mut controller, STRANGER, &page).is_ok(), is_taken, "{mixture}");
            assert_eq!(controller.record.places[1..], before.places[1..], "{mixture}");
        }
    }
}

#[test]
fn a_locked_nexus_that_lost_its_place_has_none() {
    let mut controller = Controller::with(record("LLLL"));
    controller.vendor_release(3).expect("the place is released");
    controller.vendor_release(2).expect("the place is released");
    assert!(controller.record.nexuses[15].lock);
    assert_eq!(send(&mut controller, 15, &k()), Err(Refused::ChangedByVendorEvent));
    assert_eq!(send(&mut controller, 15, &k()), Ok(()));
    assert_eq!(controller.record.local_place(15), Some(2));
}
