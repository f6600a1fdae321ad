//! Establishing, releasing and selecting: from every scope to every scope over every pattern of used places; all
//! places taken, locked and not; the counter about to wrap; numbers that come out the same.

use crate::codes::{decryption, scope};
use crate::comparison::page_builder::{descriptor, SetPage};
use crate::comparison::record_builder::{full, mixed, settle, settle_all, supply};
use crate::comparison::session::{
    event, load, power_on, security_in, security_out, vendor_release, write, Session, Sink, Stage,
};
use crate::record::Record;
use crate::sizes::{NEXUSES, PLACES};
use crate::stream::{kind, Command};

pub fn sessions(sink: &mut Sink) {
    transitions(sink);
    all_places_taken(sink);
    pending_owners(sink);
    eviction_in_turn(sink);
    wraps(sink);
    same_numbers(sink);
    replacing(sink);
    supplemental_keys(sink);
    registering(sink);
}

/// The pages of each scope, locked and not.
fn pages() -> Vec<SetPage> {
    let list = [descriptor(0, 9, 9), descriptor(1, 3, 3)].concat();
    let mut pages = Vec::new();
    for lock in [false, true] {
        pages.push(SetPage::public(lock));
        pages.push(SetPage { lock, list: list.clone(), rdmc: 3, ..SetPage::k() });
        pages.push(SetPage { lock, list: list.clone(), ..SetPage::all() });
        pages.push(SetPage { lock, encryption: 1, decryption: 0, key: Vec::new(), rdmc: 3, ..SetPage::k() });
    }
    pages
}

/// A record where places 1 to 4 are used as the pattern's bits say, by nexuses 10 to 13, and nexus 3 has a scope.
/// Bit 4: place 0 is used; bit 5: by ALL nexus 9, if 3 isn't ALL; bit 6: nexus 3's lock; bit 7: the others' marks.
fn transition_record(own_scope: u8, pattern: usize) -> Option<Record> {
    let bit = |bit: usize| pattern >> bit & 1 != 0;
    let mut record = Record::power_on();
    record.counter = 20;
    for place in 0..PLACES {
        record.places[place].number = 10 + place as u32;
    }
    for place in 1..PLACES {
        if bit(place - 1) {
            settle(&mut record, place, 9 + place, 2, 2, 15 + place as u32);
        }
    }
    if bit(4) {
        settle_all(&mut record, 9, 2, 3, 14);
        if !bit(5) {
            record.nexuses[9].scope = scope::PUBLIC;
        }
    } else if bit(5) {
        return None;
    }
    match own_scope {
        scope::LOCAL => {
            let place = (1..PLACES).rev().find(|&place| !record.places[place].is_used())?;
            settle(&mut record, place, 3, 2, 3, 20);
        }
        scope::ALL if bit(4) && !bit(5) => settle_all(&mut record, 3, 2, 2, 20),
        scope::ALL => return None,
        _ => {}
    }
    record.nexuses[3].lock = bit(6);
    record.nexuses[3].saved_at_lock = 17;
    record.nexuses[3].last_local = 18;
    record.nexuses[3].registered = bit(7);
    for nexus in [9, 10, 11, 12, 13, 14] {
        record.nexuses[nexus].registered = bit(7);
    }
    Some(record)
}

/// From every scope to every scope.
fn transitions(sink: &mut Sink) {
    for own_scope in [scope::PUBLIC, scope::LOCAL, scope::ALL] {
        for pattern in 0..256 {
            if let Some(record) = transition_record(own_scope, pattern) {
                let mut stage = Stage::new("from scope to scope", record, sink);
                for page in pages() {
                    stage.call(security_out(3, page.bytes()));
                }
                stage.finish();
            }
        }
    }
}

/// All places taken, each owner locked or not; then a fifth nexus, a sixth, and the owners again.
fn all_places_taken(sink: &mut Sink) {
    for owners in [[0, 1, 2, 3], [3, 2, 1, 0], [15, 0, 8, 5], [1, 9, 14, 2]] {
        for locks in 0..16 {
            let mut record = full(owners);
            if owners.contains(&9) {
                // Nexus 9 is a LOCAL owner here, and its former set stays in place 0.
                record.nexuses[9].scope = scope::LOCAL;
            }
            for (at, &owner) in owners.iter().enumerate() {
                record.nexuses[owner].lock = locks >> at & 1 != 0;
            }
            let mut commands = vec![load(&record)];
            for nexus in [4, 6, owners[2] as u8, owners[0] as u8, 9] {
                let page = SetPage { lock: nexus == 6, ..SetPage::k() };
                commands.push(security_out(nexus, page.bytes()));
                commands.push(security_out(nexus, page.bytes()));
                commands.push(write(nexus, true));
                commands.push(security_in(nexus, 0x0020, 24));
            }
            commands.push(security_out(6, SetPage::public(false).bytes()));
            commands.push(security_out(7, SetPage::k().bytes()));
            sink(Session { name: "all places taken".to_string(), commands });
        }
    }
}

/// All places taken, each owner locked or not, and with something pending, which loaded records alone bring about: a fifth
/// nexus, each owner's page with the other LOCK, which isn't carried out, and a sixth nexus.
fn pending_owners(sink: &mut Sink) {
    let owners = [7, 2, 12, 0];
    for locks in 0..16 {
        let mut record = full(owners);
        let mut commands = Vec::new();
        for (at, owner) in owners.into_iter().enumerate() {
            let lock = locks >> at & 1 != 0;
            record.nexuses[owner].lock = lock;
            record.nexuses[owner].changed_by_another_nexus = true;
            commands.push(security_out(owner as u8, SetPage { lock: !lock, ..SetPage::k() }.bytes()));
        }
        let [fifth, sixth] = [4, 6].map(|nexus| security_out(nexus, SetPage::k().bytes()));
        let commands = [vec![load(&record), fifth], commands, vec![sixth]].concat();
        sink(Session { name: "owners with something pending".to_string(), commands });
    }
}

/// Every nexus in turn takes a place from the one before.
fn eviction_in_turn(sink: &mut Sink) {
    let page = SetPage::k_unlocked().bytes();
    let mut commands = vec![power_on()];
    for round in 0..3u8 {
        for nexus in 0..NEXUSES as u8 {
            commands.push(security_out((nexus * 5 + round) % 16, page.clone()));
        }
        for nexus in 0..NEXUSES as u8 {
            commands.push(write(nexus, true));
        }
    }
    sink(Session { name: "eviction in turn".to_string(), commands });
}

/// The counter about to wrap, under pages and events that draw once to five times.
fn wraps(sink: &mut Sink) {
    let changes = || -> Vec<Command> {
        let mut changes = vec![event(kind::MICROCODE), event(kind::DEMOUNT), vendor_release(0)];
        for nexus in [4, 0, 9] {
            for page in [SetPage::k(), SetPage::all(), SetPage::public(true)] {
                changes.push(security_out(nexus, page.bytes()));
            }
        }
        changes
    };
    for below in 0..7u32 {
        let mut record = full([0, 1, 2, 3]);
        record.counter = u32::MAX - below;
        for place in 0..PLACES {
            record.places[place].ckod = place % 2 == 0;
        }
        for change in changes() {
            let after = [0, 4, 9, 2].map(|nexus| write(nexus, true));
            let more = security_out(8, SetPage::k().bytes());
            let commands = [vec![load(&record), change], after.to_vec(), vec![more]].concat();
            sink(Session { name: "the counter about to wrap".to_string(), commands });
        }
    }
}

/// Numbers drawn that are the same as those there were, in the same place and in another.
fn same_numbers(sink: &mut Sink) {
    for ahead in 0..6u32 {
        let mut record = full([0, 1, 2, 3]);
        for counter in [100, u32::MAX] {
            record.counter = counter;
            for place in 0..PLACES {
                record.places[place].number = counter.wrapping_add(ahead);
                record.places[place].ckod = true;
                record.places[place].ckorl = true;
            }
            for nexus in &mut record.nexuses {
                nexus.lock = true;
                nexus.saved_at_lock = counter.wrapping_add(ahead);
            }
            record.nexuses[2].lock = false;
            let mut stage = Stage::new("numbers that come out the same", record.clone(), sink);
            for place in 0..PLACES as u16 {
                stage.call(vendor_release(place));
            }
            stage.call(event(kind::DEMOUNT));
            stage.call(event(kind::DEVICE_RESERVATION_LOSS));
            stage.call(event(kind::MICROCODE));
            for nexus in [0, 2, 4, 9] {
                for page in pages() {
                    stage.call(security_out(nexus, page.bytes()));
                }
            }
            stage.finish();
        }
    }
}

/// A set replaced by the same nexus loses its supplemental keys, its key and its key-associated data.
fn replacing(sink: &mut Sink) {
    let mut record = mixed();
    supply(&mut record.places[2], 3);
    record.nexuses[9].changed_by_vendor_event = false;
    let mut stage = Stage::new("a set replaced", record, sink);
    for nexus in [0, 3, 9, 15, 5] {
        for decryption in 0..4 {
            for encryption in 0..3 {
                for scope in [scope::LOCAL, scope::ALL] {
                    let with_key = encryption == 2 || decryption >= 2;
                    let key = if with_key { vec![0xB7; 32] } else { Vec::new() };
                    let page = SetPage { scope, encryption, decryption, key, ..SetPage::k() };
                    stage.call(security_out(nexus, page.bytes()));
                }
            }
        }
    }
    stage.finish();
}

/// Supplemental keys up to the fifth for LOCAL and ALL sets of both modes.
fn supplemental_keys(sink: &mut Sink) {
    for scope in [scope::LOCAL, scope::ALL] {
        for mode in [decryption::DECRYPT, decryption::MIXED] {
            for encryption in 0..3 {
                for lock in [false, true] {
                    let set = SetPage { scope, decryption: mode, encryption, lock, ..SetPage::k() };
                    let mut commands = vec![power_on(), security_out(1, set.bytes())];
                    for key in 1..=6 {
                        let page = SetPage { lock: !lock, ..SetPage::supplemental(scope, mode, key) };
                        commands.push(security_out(1, page.bytes()));
                        commands.push(security_out(2, page.bytes()));
                        commands.push(write(1, true));
                        commands.push(security_in(1, 0x0020, 24));
                    }
                    commands.push(security_out(1, set.bytes()));
                    sink(Session { name: "supplemental keys".to_string(), commands });
                }
            }
        }
    }
}

/// Registering by refused commands too, and who is flagged for it.
fn registering(sink: &mut Sink) {
    let k = SetPage::k().bytes();
    let mut wrong = k.clone();
    wrong[8] = 9;
    let supplemental = SetPage::supplemental(scope::LOCAL, decryption::DECRYPT, 1).bytes();
    let firsts = [
        security_in(5, 0x0020, 0),
        security_in(5, 0x0033, 0),
        Command { protocol: 0, ..security_in(5, 0x0020, 0) },
        Command { argument: 0x0020, ..security_out(5, k.clone()) },
        security_out(5, k[..30].to_vec()),
        security_out(5, wrong),
        security_out(5, supplemental),
        security_out(5, k.clone()),
        write(5, true),
    ];
    for first in firsts {
        for taken in [false, true] {
            let mut record = full([0, 1, 2, 3]);
            for nexus in &mut record.nexuses {
                nexus.registered = false;
                nexus.lock = taken;
            }
            let mut commands = vec![load(&record), first.clone()];
            commands.push(security_out(6, SetPage::all().bytes()));
            commands.extend([write(5, true), write(5, true), event(kind::LOGICAL_UNIT_RESET)]);
            commands.push(security_out(7, SetPage::all().bytes()));
            commands.push(write(5, true));
            sink(Session { name: "registering".to_string(), commands });
        }
    }
}
