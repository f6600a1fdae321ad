//! Records one byte away from well formed, records with other scopes and owners, and records of other lengths; each met by
//! a call. The words are those that the scopes then say, and where these are others those from before as well.

use crate::codes::scope;
use crate::comparison::page_builder::SetPage;
use crate::comparison::record_builder::{full, mixed, settle_all, without_all_nexus};
use crate::comparison::session::{
    event, event_of, load_bytes, power_on, security_in, security_out, serves, vendor_release, write, Session,
    Sink,
};
use crate::record::{Record, Set};
use crate::record_bytes::{self, COUNTER_BYTES, NEXUS_BYTES, PLACE_BYTES, WORDS_START};
use crate::sizes::{NEXUSES, PLACES};
use crate::stream::{kind, Command};

/// Records in one session.
const LOADS: usize = 20;

/// The calls that meet the records, in turn.
fn calls() -> Vec<Command> {
    vec![
        event(kind::LOGICAL_UNIT_RESET),
        write(3, true),
        event(kind::DEMOUNT),
        security_in(0, 0x0020, 76),
        event_of(kind::NEXUS_RESERVATION_LOSS, 0),
        security_out(3, SetPage::k().bytes()),
        event(kind::DEVICE_RESERVATION_LOSS),
        event_of(kind::PREEMPT, 5),
        event(kind::MICROCODE),
        vendor_release(2),
        security_out(5, SetPage::public(true).bytes()),
        write(16, false),
        vendor_release(5),
        serves(0),
        serves(3),
        serves(5),
    ]
}

pub fn sessions(sink: &mut Sink) {
    let mut records = one_byte_away();
    records.extend(scopes_and_owners().iter().flat_map(with_both_words));
    records.extend(other_lengths());
    let calls = calls();
    let mut turn = 0;
    for part in records.chunks(LOADS) {
        let mut commands = vec![power_on()];
        for record in part {
            commands.push(load_bytes(record.clone()));
            commands.push(calls[turn % calls.len()].clone());
            turn += 1;
        }
        sink(Session { name: "records near well formed".to_string(), commands });
    }
}

/// The bytes of a record with the words that its scopes say and, if these are others, with those that it has.
fn with_both_words(record: &Record) -> Vec<Vec<u8>> {
    let mut right = record.clone();
    right.put_words_right();
    let mut both = vec![record_bytes::give(&right)];
    if right != *record {
        both.push(record_bytes::give(record));
    }
    both
}

/// The records that bytes are changed of.
fn bases() -> Vec<Record> {
    let mut former_all = without_all_nexus();
    former_all.places[0].owner = 3;
    vec![Record::power_on(), mixed(), former_all, full([4, 3, 2, 1])]
}

/// One byte changed: those of keys and key-associated data once, every other to many values.
fn one_byte_away() -> Vec<Vec<u8>> {
    let mut records = Vec::new();
    for base in bases() {
        let bytes = record_bytes::give(&base);
        for at in 0..bytes.len() {
            for value in values(at, bytes[at]) {
                let mut changed = bytes.clone();
                changed[at] = value;
                match record_bytes::load(&changed) {
                    Some(record) if at < WORDS_START => records.extend(with_both_words(&record)),
                    _ => records.push(changed),
                }
            }
        }
    }
    records
}

/// The values a byte of the record is changed to.
fn values(at: usize, now: u8) -> Vec<u8> {
    if is_bulk(at) {
        return vec![now ^ 0x01];
    }
    let mut values = vec![0, 1, 2, 3, 4, 5, 9, 12, 13, 15, 16, 31, 32, 33, 128, 255];
    values.extend([now.wrapping_add(1), now.wrapping_sub(1)]);
    values.sort();
    values.dedup();
    values.retain(|&value| value != now);
    values
}

/// Whether a byte is one of a key, of key-associated data, or of a number.
pub fn is_bulk(at: usize) -> bool {
    if at < COUNTER_BYTES {
        return true;
    }
    let at = at - COUNTER_BYTES;
    if at < PLACES * PLACE_BYTES {
        return matches!(at % PLACE_BYTES, 5..=8 | 14..=45 | 47..=174 | 176..=207 | 209..);
    }
    let at = at - PLACES * PLACE_BYTES;
    at < NEXUSES * NEXUS_BYTES && matches!(at % NEXUS_BYTES, 2..=9)
}

/// Every scope of every nexus and place, and every owner, in records of each kind: relations more than one byte
/// can break.
fn scopes_and_owners() -> Vec<Record> {
    let mut records = Vec::new();
    for base in bases() {
        for place in 0..PLACES {
            for owner in 0..NEXUSES as u8 + 1 {
                for scope in 0..4 {
                    let mut record = base.clone();
                    record.places[place].owner = owner;
                    record.places[place].scope = scope;
                    if record.places[place].index == 0 && scope != 0 {
                        record.places[place].index = 1;
                    }
                    records.push(record.clone());
                    let mut emptied = base.clone();
                    let number = emptied.places[place].number;
                    emptied.places[place] = Set { owner, scope, ..Set::empty(number) };
                    records.push(emptied);
                    if usize::from(owner) < NEXUSES {
                        record.nexuses[usize::from(owner)].scope = scope;
                        records.push(record.clone());
                    }
                }
            }
        }
        for nexus in 0..NEXUSES {
            let mut record = base.clone();
            settle_all(&mut record, nexus, 0, 0, 3);
            records.push(record.clone());
            record.nexuses[9].scope = scope::ALL;
            records.push(record.clone());
            record.places[0] = Set::empty(8);
            records.push(record.clone());
        }
    }
    records
}

/// Records of other lengths are answered 1.
fn other_lengths() -> Vec<Vec<u8>> {
    let bytes = record_bytes::give(&mixed());
    let mut records = Vec::new();
    for length in
        [0, 1, 4, 8, 225, 1109, 1304, 1316, 1317, 1318, 1325, 1349, 1355, 1356, 1358, 1359, 1365, 2714]
    {
        let mut changed = bytes.clone();
        changed.resize(length, 0);
        records.push(changed);
    }
    records
}
