//! Restoring hosts: reads after Set pages, supplemental keys and events, and among other calls.

use crate::codes::{decryption, scope};
use crate::comparison::page_builder::SetPage;
use crate::comparison::record_builder::full;
use crate::comparison::session::{
    event, event_of, load, power_on, read, security_in, security_out, vendor_release, write, Session, Sink,
};
use crate::sizes::{NEXUSES, PLACES};
use crate::stream::{kind, Command};

pub fn sessions(sink: &mut Sink) {
    examples(sink);
    after_pages(sink);
    after_events(sink);
    after_eviction(sink);
    former_all_owner(sink);
    registering(sink);
    among_other_calls(sink);
}

/// A session.
fn session(name: &str, commands: Vec<Command>, sink: &mut Sink) {
    sink(Session { name: name.to_string(), commands });
}

/// Reads of each kind with no key, the main key, the first supplemental key and keys there aren't.
fn reads(nexus: u8) -> Vec<Command> {
    let arguments =
        [(0, 255), (1, 0), (1, 1), (1, 255), (2, 255), (2, 0), (0, 0), (3, 255), (0, 1), (1, 5), (1, 254)];
    arguments.map(|(block_kind, key)| read(nexus, block_kind, key)).to_vec()
}

/// A page of these modes, with a key where it needs one.
fn page(scope: u8, lock: bool, encryption: u8, decryption: u8) -> SetPage {
    SetPage { lock, ..SetPage::of_modes(scope, encryption, decryption) }
}

/// What 02's request 1 names: P7 and P8 with reads, a supplemental key before and after, RAW without ENCRYPT.
fn examples(sink: &mut Sink) {
    let k = security_out(3, SetPage::k().bytes());
    let start = vec![power_on(), k.clone()];
    let supplemental = security_out(3, SetPage::supplemental(scope::LOCAL, decryption::DECRYPT, 7).bytes());
    session("reads before and after K", [vec![power_on()], reads(3), vec![k], reads(3)].concat(), sink);
    session("reads after a supplemental key", [start.clone(), vec![supplemental], reads(3)].concat(), sink);
    let demount = vec![event(kind::DEMOUNT), read(3, 3, 9), write(3, true)];
    session("P7 with reads", [start, demount, reads(3), vec![write(3, true)]].concat(), sink);
    let all = |decryption| security_out(6, page(scope::ALL, false, 2, decryption).bytes());
    for mode in 0..4 {
        let locks = security_out(5, SetPage::public(true).bytes());
        let then = vec![power_on(), locks, all(mode), read(5, 1, 9), write(5, true)];
        session("P8 with reads", [then, reads(5), reads(6), vec![write(5, true)]].concat(), sink);
    }
    for encryption in 0..3 {
        let raw = security_out(3, page(scope::LOCAL, true, encryption, decryption::RAW).bytes());
        session("reads under RAW", [vec![power_on(), raw], reads(3)].concat(), sink);
    }
}

/// Every mixture of modes from a page, read by its sender and by another nexus; then with each supplemental key,
/// with the set replaced, and with the sender PUBLIC again.
fn after_pages(sink: &mut Sink) {
    for scope in [scope::LOCAL, scope::ALL] {
        for mixture in 0..12 {
            for lock in [false, true] {
                let set = page(scope, lock, mixture % 3, mixture / 3);
                let mut commands = vec![power_on(), security_out(1, set.bytes()), write(1, true)];
                commands.extend([reads(1), reads(2)].concat());
                for key in 1..=5 {
                    let supplemental = SetPage::supplemental(scope, set.decryption, key);
                    commands.push(security_out(1, supplemental.bytes()));
                    commands.extend((0..=5).map(|key| read(1, 1, key)));
                    commands.extend([read(1, 0, key), read(1, 2, key), read(2, 1, key), read(1, 1, 255)]);
                }
                commands.push(security_out(1, set.bytes()));
                commands.extend(reads(1));
                commands.push(security_out(1, SetPage::public(lock).bytes()));
                commands.extend([reads(1), reads(2)].concat());
                session("reads after pages", commands, sink);
            }
        }
    }
}

/// Every event over sets that it releases, each nexus locked on its set's number or not: first what is pending, then
/// reads, though a write is stopped.
fn after_events(sink: &mut Sink) {
    let mut events = vec![
        event(kind::LOGICAL_UNIT_RESET),
        event(kind::DEMOUNT),
        event(kind::DEVICE_RESERVATION_LOSS),
        event(kind::MICROCODE),
        event_of(kind::NEXUS_RESERVATION_LOSS, 1),
        event_of(kind::PREEMPT, 2),
        event_of(kind::PREEMPT, 5),
        power_on(),
    ];
    events.extend((0..PLACES as u16).map(vendor_release));
    for lock in [false, true] {
        let mut record = full([0, 1, 2, 3]);
        for place in 0..PLACES {
            let set = &mut record.places[place];
            (set.ckod, set.ckorp, set.ckorl) = (true, true, true);
        }
        for nexus in 0..NEXUSES {
            record.nexuses[nexus].lock = lock;
            record.nexuses[nexus].saved_at_lock = record.selected_set(nexus).number;
        }
        for event in &events {
            let mut commands = vec![load(&record), event.clone()];
            for nexus in [0, 1, 2, 3, 9, 5] {
                commands.extend([read(nexus, 1, 0), read(nexus, 1, 0), write(nexus, true)]);
                commands.extend([read(nexus, 0, 255), read(nexus, 1, 255)]);
            }
            session("reads after events", commands, sink);
        }
    }
}

/// P5 and P6 with reads; then every nexus in turn takes a place from the one before, and all of them read.
fn after_eviction(sink: &mut Sink) {
    for lock in [false, true] {
        let set = SetPage { lock, ..SetPage::k() }.bytes();
        for last in [page(scope::LOCAL, true, 0, 3), page(scope::ALL, true, 1, 1)] {
            let mut commands = vec![power_on()];
            commands.extend((0..=4).map(|nexus| security_out(nexus, set.clone())));
            commands.extend((0..=5).flat_map(reads));
            commands.push(security_out(5, last.bytes()));
            commands.extend((0..=6).flat_map(reads));
            session("reads after eviction", commands, sink);
        }
    }
    let mut commands = vec![power_on()];
    for turn in 0..2 * NEXUSES as u8 {
        let mode = turn % 4;
        commands.push(security_out(turn * 5 % 16, page(scope::LOCAL, false, 2, mode).bytes()));
        for nexus in 0..NEXUSES as u8 {
            commands.push(read(nexus, (turn + nexus) % 3, 255));
        }
        commands.push(read(turn * 5 % 16, 1, 0));
    }
    session("reads with eviction in turn", commands, sink);
}

/// The owner in place 0 reads as ALL nexus, from its own LOCAL place, as PUBLIC nexus, and after another's ALL page;
/// a PUBLIC nexus reads beside it.
fn former_all_owner(sink: &mut Sink) {
    for mode in 0..4 {
        let shared = page(scope::ALL, false, 2, mode);
        let own = page(scope::LOCAL, true, 0, (mode + 1) % 4);
        let others = page(scope::ALL, false, 2, (mode + 2) % 4);
        let mut commands = vec![power_on()];
        for (sender, set) in
            [(1, &shared), (1, &own), (1, &SetPage::public(true)), (1, &own), (2, &others), (2, &own)]
        {
            commands.push(security_out(sender, set.bytes()));
            commands.extend((1..=3).flat_map(reads));
        }
        session("reads of a former ALL owner", commands, sink);
    }
}

/// A read registers nobody: an ALL page and a demount after it flag its reader only if a page registered it.
fn registering(sink: &mut Sink) {
    for first in reads(5).into_iter().chain([security_in(5, 0x0020, 0)]) {
        let mut commands = vec![power_on(), first];
        commands.push(security_out(6, SetPage::all().bytes()));
        commands.extend([read(5, 1, 0), read(5, 1, 0), event(kind::DEMOUNT), read(5, 0, 255)]);
        commands.extend([read(5, 0, 255), event(kind::LOGICAL_UNIT_RESET)]);
        commands.extend([security_out(7, SetPage::all().bytes()), read(5, 1, 0)]);
        session("reads register nobody", commands, sink);
    }
}

/// Long sessions: pages, supplemental keys, writes, IN and events from all nexuses in turn, with reads between them.
fn among_other_calls(sink: &mut Sink) {
    for start in 0..8u8 {
        let mut commands = vec![power_on()];
        for turn in 0..60u8 {
            let [nexus, other] = [turn * 3 + start, turn * 2 + start].map(|number| number % 7);
            let (scope, mixture) = ([1, 1, 2, 1, 0][usize::from(turn % 5)], (turn + start) % 12);
            let set = page(scope, turn % 4 == start % 4, mixture % 3, mixture / 3);
            commands.push(security_out(nexus, set.bytes()));
            commands.push(read(nexus, turn % 3, 0));
            if turn % 2 == 0 {
                let key = SetPage::supplemental(scope.max(1), set.decryption, turn);
                commands.push(security_out(nexus, key.bytes()));
                commands.push(read(nexus, 1, 1));
            }
            commands.push(read(other, turn % 3, 255));
            commands.push(match turn % 8 {
                1 => event(kind::DEMOUNT),
                3 => event_of(kind::PREEMPT, other),
                5 => vendor_release(u16::from(turn) % 5),
                7 => event_of(kind::NEXUS_RESERVATION_LOSS, nexus),
                _ => write(other, turn % 4 == 0),
            });
            commands.push(read(nexus, (turn + 1) % 3, [255, 0, 1][usize::from(turn / 3 % 3)]));
            commands.push(security_in(other, 0x0020, 24));
            commands.push(read(other, 1, turn % 3));
        }
        session("reads among other calls", commands, sink);
    }
}
