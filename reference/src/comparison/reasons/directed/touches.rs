//! A locked nexus whose set each kind of call touches or leaves, in each place; sets that are evicted. After the call the
//! locked nexus takes its flags, and the set is touched again.

use super::{all, kept, local, public, register, without_key, ASKED, OTHER, THIRD};
use crate::comparison::reasons::case::{put, Sink};
use crate::comparison::recordings::case::Group;
use crate::comparison::session::{event, event_of, power_on, vendor_release, write};
use crate::sizes::NEXUSES;
use crate::stream::{kind, Command};

pub fn cases(sink: &mut Sink) {
    for (start_name, start) in starts() {
        for (call_name, call) in calls() {
            let mut commands = [vec![register(OTHER)], start.clone(), vec![call]].concat();
            commands.extend([write(ASKED, true), write(ASKED, false), all(THIRD, false)]);
            commands.extend(vec![write(ASKED, true); 2]);
            commands.extend([vendor_release(0), event(kind::MICROCODE)]);
            commands.extend(vec![write(ASKED, true); 2]);
            put(sink, Group::ReasonTouches, format!("{start_name}, {call_name}"), &commands);
        }
    }
    evictions(sink);
    each_nexus(sink);
}

/// How the lock comes about: with a set of its own in each place, with one for all, over another nexus's set, over the
/// default set.
fn starts() -> Vec<(String, Vec<Command>)> {
    let mut starts: Vec<(String, Vec<Command>)> = (1..=4)
        .map(|place| {
            let others = (0..place - 1).map(|nexus| kept(10 + nexus));
            (format!("LOCAL in place {place}"), others.chain([local(ASKED, true)]).collect())
        })
        .collect();
    starts.extend([
        ("ALL".to_string(), vec![all(ASKED, true)]),
        ("PUBLIC".to_string(), vec![all(OTHER, false), public(ASKED, true)]),
        ("PUBLIC over the default set".to_string(), vec![public(ASKED, true)]),
    ]);
    starts
}

/// Every kind of call that can touch a set, and some that never do.
fn calls() -> Vec<(String, Command)> {
    let mut calls = vec![
        ("a LOCAL set of another".to_string(), local(OTHER, true)),
        ("an ALL set of another".to_string(), all(OTHER, true)),
        ("an ALL set without a key of another".to_string(), without_key(OTHER)),
        ("PUBLIC of another".to_string(), public(OTHER, true)),
        ("demount".to_string(), event(kind::DEMOUNT)),
        ("device reservation loss".to_string(), event(kind::DEVICE_RESERVATION_LOSS)),
        ("microcode".to_string(), event(kind::MICROCODE)),
        ("logical unit reset".to_string(), event(kind::LOGICAL_UNIT_RESET)),
        ("power-on".to_string(), power_on()),
    ];
    for nexus in [ASKED, OTHER] {
        calls.push((
            format!("nexus reservation loss of nexus {nexus}"),
            event_of(kind::NEXUS_RESERVATION_LOSS, nexus),
        ));
        calls.push((format!("preempt of nexus {nexus}"), event_of(kind::PREEMPT, nexus)));
    }
    calls.extend((0..=5).map(|place| (format!("vendor release of place {place}"), vendor_release(place))));
    calls
}

/// The set of an unlocked nexus in each place, evicted while every lower place is a locked nexus's, and then the evicting
/// nexus's own set; a set that its own nexus replaces is no other's.
fn evictions(sink: &mut Sink) {
    for place in 1..=4 {
        let mut commands: Vec<Command> = (1..place).map(|nexus| kept(9 + nexus)).collect();
        commands.push(local(ASKED, false));
        commands.extend((place..4).map(|nexus| kept(9 + nexus)));
        commands.extend([local(OTHER, false), write(ASKED, true), write(ASKED, true)]);
        commands.extend([local(OTHER, false), local(THIRD, true), write(OTHER, true), write(OTHER, false)]);
        commands.extend([vendor_release(place.into()), write(THIRD, true), write(THIRD, true)]);
        put(sink, Group::ReasonTouches, format!("evicted from place {place}"), &commands);
    }
    let commands = [
        local(ASKED, true),
        local(ASKED, false),
        all(ASKED, true),
        all(ASKED, false),
        public(ASKED, false),
        write(ASKED, false),
    ];
    put(sink, Group::ReasonTouches, "replaced by its own nexus", &commands);
}

/// Each nexus as the locked one: its own set lost with its reservation, then place 0 touched by two others.
fn each_nexus(sink: &mut Sink) {
    for nexus in 0..NEXUSES as u8 {
        let [sender, preemptor] = [1, 7].map(|later| (nexus + later) % NEXUSES as u8);
        let written = || vec![write(nexus, true), write(nexus, true), write(nexus, false)];
        let mut commands = vec![local(nexus, true), event_of(kind::NEXUS_RESERVATION_LOSS, nexus)];
        commands.extend(written());
        commands.extend([public(nexus, true), all(sender, false)]);
        commands.extend(written());
        commands.push(event_of(kind::PREEMPT, preemptor));
        commands.extend(written());
        put(sink, Group::ReasonTouches, format!("nexus {nexus}"), &commands);
    }
}
