//! Each nexus's pages of every scope, in an order in which it comes from each scope to each; ALL in place of ALL; records of
//! many kinds that are loaded.

use super::asking::Asking;
use crate::codes::{decryption, scope};
use crate::comparison::page_builder::SetPage;
use crate::comparison::record_builder::{full, mixed, without_all_nexus};
use crate::comparison::session::{event, power_on, read, security_in, write, Sink};
use crate::record::Record;
use crate::sizes::NEXUSES;
use crate::stream::kind;

pub fn sessions(sink: &mut Sink) {
    for nexus in 0..NEXUSES as u8 {
        from_scope_to_scope(nexus, sink);
        all_replaces_all(nexus, sink);
    }
    loaded(sink);
}

/// LOCAL, LOCAL again in its own place with the other lock, a supplemental key, PUBLIC, LOCAL, ALL, a supplemental key, ALL
/// again, LOCAL, ALL, PUBLIC, PUBLIC; then a reset and power-on.
fn from_scope_to_scope(nexus: u8, sink: &mut Sink) {
    let lock = matches!(nexus % 2, 0);
    let local = SetPage { lock, ..SetPage::k() };
    let again = SetPage { lock: !lock, ..SetPage::k() };
    let all = SetPage { lock, ..SetPage::all() };
    let public = SetPage::public(lock);
    let key = |scope| SetPage::supplemental(scope, decryption::DECRYPT, nexus);
    let mut asking = Asking::new();
    for page in [&local, &again, &key(scope::LOCAL), &public, &local, &all, &key(scope::ALL), &all] {
        asking.send(nexus, page);
    }
    for call in [write(nexus, true), read(nexus, 1, 0), security_in(nexus, 0x0020, 24)] {
        asking.call(call);
    }
    for page in [&local, &all, &public, &public, &local] {
        asking.send(nexus, page);
    }
    asking.call(event(kind::LOGICAL_UNIT_RESET));
    asking.call(power_on());
    asking.finish("whom sets serve: from scope to scope", sink);
}

/// Beside LOCAL nexuses and a locked PUBLIC one: ALL, which another nexus replaces, then a LOCAL one, then the first again.
fn all_replaces_all(nexus: u8, sink: &mut Sink) {
    let [other, local, public] = [1, 2, 3].map(|step| (nexus + step) % NEXUSES as u8);
    let mut asking = Asking::new();
    asking.send(local, &SetPage::k());
    asking.send(public, &SetPage::public(true));
    for sender in [nexus, other, local, nexus] {
        asking.send(sender, &SetPage::all());
    }
    asking.call(write(public, true));
    asking.send(nexus, &SetPage::k_unlocked());
    asking.finish("whom sets serve: ALL in place of ALL", sink);
}

/// Loaded records, and whom their sets serve.
fn loaded(sink: &mut Sink) {
    for record in
        [Record::power_on(), mixed(), without_all_nexus(), full([15, 14, 13, 12]), full([0, 7, 8, 3])]
    {
        Asking::from(&record).finish("whom sets serve: loaded records", sink);
    }
}
