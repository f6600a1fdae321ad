//! Each nexus in each place, and calls of every kind that change nobody's place: each bit stays in its word.

use super::seats::Seats;
use crate::codes::{decryption, scope};
use crate::comparison::page_builder::SetPage;
use crate::comparison::session::{
    event, event_of, load, read, security_in, security_out, serves, write, Session, Sink,
};
use crate::sizes::PLACES;
use crate::stream::{kind, Command};

pub fn sessions(sink: &mut Sink) {
    for seats in Seats::every() {
        let commands = [vec![load(&seats.record(true))], calls(seats)].concat();
        sink(Session { name: "bits that stay".to_string(), commands });
    }
}

/// Calls of the owners and of a nexus without a place, supplemental keys, events that release nothing, and a reset.
fn calls(seats: Seats) -> Vec<Command> {
    let mut calls = Vec::new();
    for place in 0..=PLACES {
        let nexus = seats.owner(place);
        calls.extend([read(nexus, 1, 0), write(nexus, true), security_in(nexus, 0x0020, 24)]);
    }
    for place in 0..PLACES {
        let (scope, mode) =
            if place == 0 { (scope::ALL, decryption::MIXED) } else { (scope::LOCAL, decryption::DECRYPT) };
        let key = SetPage::supplemental(scope, mode, place as u8);
        calls.extend([security_out(seats.owner(place), key.bytes()), serves(place as u16)]);
        calls.extend(
            [kind::NEXUS_RESERVATION_LOSS, kind::PREEMPT].map(|kind| event_of(kind, seats.owner(place))),
        );
    }
    calls.extend([kind::DEMOUNT, kind::DEVICE_RESERVATION_LOSS, kind::LOGICAL_UNIT_RESET].map(event));
    calls
}
