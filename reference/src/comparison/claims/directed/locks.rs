//! A locked nexus whose set each kind of call touches or leaves: writes before the call, and after it those that find
//! the flags, if any, and the lock.

use crate::codes::{decryption, scope};
use crate::comparison::claims::case::{put, Sink};
use crate::comparison::page_builder::SetPage;
use crate::comparison::recordings::case::Group;
use crate::comparison::session::{
    event, event_of, power_on, read, security_in, security_out, vendor_release, write,
};
use crate::stream::{kind, Command};

/// The locked nexus, and another.
const LOCKED: u8 = 3;
const OTHER: u8 = 6;

pub fn cases(sink: &mut Sink) {
    for (name, commands) in sessions() {
        put(sink, Group::ClaimLocks, name, &commands, "250");
    }
}

/// The sessions with their names.
pub fn sessions() -> Vec<(String, Vec<Command>)> {
    let mut sessions = Vec::new();
    for (scope_name, start) in starts() {
        for (call_name, call) in calls() {
            let mut commands = vec![security_in(OTHER, 0x0020, 0)];
            commands.extend(start.clone());
            commands.extend(vec![write(LOCKED, true); 2]);
            commands.push(call);
            commands.extend(vec![write(LOCKED, true); 3]);
            commands.extend([write(LOCKED, false), write(OTHER, true), write(OTHER, false)]);
            sessions.push((format!("{scope_name}, {call_name}"), commands));
        }
    }
    sessions
}

/// How the lock comes about: with a set of its own, with one for all, over another nexus's set, over an empty place 0.
fn starts() -> [(&'static str, Vec<Command>); 4] {
    let public = || security_out(LOCKED, SetPage::public(true).bytes());
    [
        ("LOCAL", vec![security_out(LOCKED, SetPage::releasable(scope::LOCAL, true).bytes())]),
        ("ALL", vec![security_out(LOCKED, SetPage::releasable(scope::ALL, true).bytes())]),
        ("PUBLIC", vec![security_out(OTHER, SetPage::releasable(scope::ALL, false).bytes()), public()]),
        ("PUBLIC over nothing", vec![public()]),
    ]
}

/// Every kind of call, of the locked nexus or another where the call has a nexus.
fn calls() -> Vec<(String, Command)> {
    let mut calls = Vec::new();
    for nexus in [LOCKED, OTHER] {
        let mut add = |name: &str, command| calls.push((format!("{name} of nexus {nexus}"), command));
        add("IN", security_in(nexus, 0x0020, 0));
        for scope in [scope::LOCAL, scope::ALL] {
            add(
                &format!("OUT, scope {scope}, locked,"),
                security_out(nexus, SetPage::releasable(scope, true).bytes()),
            );
            add(
                &format!("OUT, scope {scope},"),
                security_out(nexus, SetPage::releasable(scope, false).bytes()),
            );
        }
        add("OUT, PUBLIC, locked,", security_out(nexus, SetPage::public(true).bytes()));
        add("OUT, PUBLIC,", security_out(nexus, SetPage::public(false).bytes()));
        for scope in [scope::LOCAL, scope::ALL] {
            let key = SetPage::supplemental(scope, decryption::DECRYPT, 7);
            add(&format!("a supplemental key, scope {scope},"), security_out(nexus, key.bytes()));
        }
        add("a page that is refused,", security_out(nexus, vec![0; 20]));
        add("a write", write(nexus, false));
        add("nexus reservation loss", event_of(kind::NEXUS_RESERVATION_LOSS, nexus));
        add("preempt", event_of(kind::PREEMPT, nexus));
        add("a read", read(nexus, 1, 0));
    }
    calls.extend((0..=2).map(|place| (format!("vendor release of place {place}"), vendor_release(place))));
    calls.extend([
        ("power-on".to_string(), power_on()),
        ("logical unit reset".to_string(), event(kind::LOGICAL_UNIT_RESET)),
        ("demount".to_string(), event(kind::DEMOUNT)),
        ("device reservation loss".to_string(), event(kind::DEVICE_RESERVATION_LOSS)),
        ("microcode".to_string(), event(kind::MICROCODE)),
    ]);
    calls
}
