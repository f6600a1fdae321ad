//! Who is told of a change: records with every place used, or place 0 empty; with numbers that all differ, that are the same,
//! and that the next draws come to; every nexus registered, none, and every other one.

use crate::codes::scope;
use crate::comparison::page_builder::SetPage;
use crate::comparison::record_builder::full;
use crate::comparison::session::{event, event_of, security_out, serves, vendor_release, Sink, Stage};
use crate::record::{Record, Set};
use crate::sizes::PLACES;
use crate::stream::{kind, Command};

pub fn sessions(sink: &mut Sink) {
    for place_0_used in [true, false] {
        for numbers in 0..4 {
            for marks in 0..3 {
                let record = record(place_0_used, numbers, marks);
                let mut stage = Stage::new("who is told of a change", record, sink);
                for call in calls() {
                    stage.call(call);
                    stage.call(serves(0));
                }
                stage.finish();
            }
        }
    }
}

/// A record whose sets have every CK bit and whose nexuses have no locks.
fn record(place_0_used: bool, numbers: u32, marks: usize) -> Record {
    let mut record = full([0, 1, 2, 3]);
    for (place, set) in record.places.iter_mut().enumerate() {
        (set.ckod, set.ckorp, set.ckorl) = (true, true, true);
        set.number = match numbers {
            0 => 1 + place as u32,
            1 => 40,
            2 => 101,
            _ => 100 + place as u32,
        };
    }
    record.counter = if numbers == 0 { 5 } else { 100 };
    if !place_0_used {
        record.nexuses[9].scope = scope::PUBLIC;
        record.places[0] = Set::empty(record.places[0].number);
    }
    for (number, nexus) in record.nexuses.iter_mut().enumerate() {
        nexus.registered = match marks {
            0 => true,
            1 => false,
            _ => number % 2 == 0,
        };
    }
    record
}

/// Pages and events of nexuses that have a place, are ALL, and neither; the acting ones registered and not.
fn calls() -> Vec<Command> {
    let mut calls = vec![event(kind::DEMOUNT), event(kind::DEVICE_RESERVATION_LOSS), event(kind::MICROCODE)];
    for nexus in [0, 1, 2, 3, 5, 8, 9] {
        calls.extend([kind::NEXUS_RESERVATION_LOSS, kind::PREEMPT].map(|kind| event_of(kind, nexus)));
        for page in [SetPage::k(), SetPage::k_unlocked(), SetPage::all(), SetPage::public(true)] {
            calls.push(security_out(nexus, page.bytes()));
        }
    }
    calls.extend((0..PLACES as u16).map(vendor_release));
    calls
}
