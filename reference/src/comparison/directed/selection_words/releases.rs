//! Each event over sets that it releases, and once more where nothing is left to release.

use super::asking::Asking;
use crate::codes::scope;
use crate::comparison::page_builder::SetPage;
use crate::comparison::session::{event, event_of, read, vendor_release, write, Sink};
use crate::sizes::{NEXUSES, PLACES};
use crate::stream::{kind, Command};

/// The owners of places 1 to 4, and the ALL nexus.
const OWNERS: [u8; 4] = [11, 2, 15, 0];
const ALL_OWNER: u8 = 6;

pub fn sessions(sink: &mut Sink) {
    for event in events() {
        for with_all in [false, true] {
            session(&event, with_all, sink);
        }
    }
    one_after_another(sink);
}

/// Every event, with nexuses that own a place, own place 0, or own none.
fn events() -> Vec<Command> {
    let mut events = vec![
        event(kind::DEMOUNT),
        event(kind::DEVICE_RESERVATION_LOSS),
        event(kind::MICROCODE),
        event(kind::LOGICAL_UNIT_RESET),
    ];
    for nexus in [OWNERS[0], OWNERS[1], OWNERS[2], OWNERS[3], ALL_OWNER, 9] {
        events.extend([kind::NEXUS_RESERVATION_LOSS, kind::PREEMPT].map(|kind| event_of(kind, nexus)));
    }
    events.extend((0..PLACES as u16).map(vendor_release));
    events
}

/// All places are taken by sets that every event releases, locked and not, and with an ALL set or without.
fn taken(with_all: bool) -> Asking {
    let mut asking = Asking::new();
    asking.send(9, &SetPage::public(false));
    for (turn, owner) in OWNERS.into_iter().enumerate() {
        asking.send(owner, &SetPage::releasable(scope::LOCAL, turn % 2 == 0));
    }
    if with_all {
        asking.send(ALL_OWNER, &SetPage::releasable(scope::ALL, true));
    }
    asking
}

/// The event twice; each nexus is told what it is told, and the owners come back.
fn session(event: &Command, with_all: bool, sink: &mut Sink) {
    let mut asking = taken(with_all);
    asking.call(event.clone());
    asking.call(event.clone());
    (0..NEXUSES as u8).step_by(3).for_each(|nexus| asking.call(write(nexus, true)));
    asking.call(read(9, 0, 255));
    OWNERS.into_iter().rev().for_each(|owner| asking.send(owner, &SetPage::k()));
    asking.finish("whom sets serve: releases", sink);
}

/// The places are released one after another, by an event of another kind each.
fn one_after_another(sink: &mut Sink) {
    for (first, owner) in OWNERS.into_iter().enumerate() {
        let mut asking = taken(true);
        for turn in first..first + 4 {
            let place = 1 + turn % 4;
            asking.call(match turn % 3 {
                0 => vendor_release(place as u16),
                1 => event_of(kind::NEXUS_RESERVATION_LOSS, OWNERS[place - 1]),
                _ => vendor_release(0),
            });
        }
        asking.send(owner, &SetPage::public(true));
        asking.call(event(kind::MICROCODE));
        asking.finish("whom sets serve: releases one after another", sink);
    }
}
