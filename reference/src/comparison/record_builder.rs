//! Device records as the comparison loads them.

use super::numbers::Numbers;
use crate::codes::{scope, ALGORITHM};
use crate::record::{Kad, Record, Set};
use crate::record_bytes;
use crate::selection_words::bit;
use crate::sizes::{A_KAD_BYTES, KEY_BYTES, NEXUSES, PLACES, SUPPLEMENTAL_KEYS, U_KAD_BYTES};

/// A used place's set with these modes and without key-associated data.
pub fn used_set(owner: u8, scope: u8, encryption: u8, decryption: u8, number: u32) -> Set {
    Set {
        owner,
        scope,
        encryption,
        decryption,
        index: ALGORITHM,
        key: [owner + 1; KEY_BYTES],
        ..Set::empty(number)
    }
}

/// Puts a set for a LOCAL nexus into a place.
pub fn settle(record: &mut Record, place: usize, nexus: usize, encryption: u8, decryption: u8, number: u32) {
    record.places[place] = used_set(nexus as u8, scope::LOCAL, encryption, decryption, number);
    record.nexuses[nexus].scope = scope::LOCAL;
    record.nexuses[nexus].last_local = number;
    record.put_words_right();
}

/// Puts a set for the ALL nexus into place 0.
pub fn settle_all(record: &mut Record, nexus: usize, encryption: u8, decryption: u8, number: u32) {
    record.places[0] = used_set(nexus as u8, scope::ALL, encryption, decryption, number);
    record.nexuses[nexus].scope = scope::ALL;
    record.put_words_right();
}

/// Gives a set so many supplemental keys.
pub fn supply(set: &mut Set, count: usize) {
    set.supplemental_count = count as u8;
    for (at, key) in set.supplemental_keys.iter_mut().take(count).enumerate() {
        *key = [0x90 + at as u8; KEY_BYTES];
    }
}

/// A record of many kinds of set: ALL nexus 9 (MIXED) in place 0; LOCAL nexus 0 (external, locked) in place 1, 3
/// (DECRYPT) in place 2, 15 (four supplemental keys) in place 4; place 3 empty. Nexus 2 is PUBLIC and locked.
pub fn mixed() -> Record {
    let mut record = Record::power_on();
    record.counter = 41;
    settle_all(&mut record, 9, 2, 3, 40);
    record.places[0].ceem = 2;
    record.places[0].rdmd = true;
    record.places[0].u_kad = Kad::of(b"label");
    record.places[0].a_kad = Kad::of(&[0xAD; A_KAD_BYTES]);
    supply(&mut record.places[0], 1);
    settle(&mut record, 1, 0, 1, 1, 35);
    record.places[1].key = [0; KEY_BYTES];
    record.places[1].ckorl = true;
    settle(&mut record, 2, 3, 2, 2, 37);
    record.places[2].u_kad = Kad::of(&[0xCD; U_KAD_BYTES]);
    record.places[2].a_kad = Kad::of(b"auth");
    record.places[2].ckorp = true;
    record.places[3].number = 33;
    settle(&mut record, 4, 15, 0, 3, 41);
    record.places[4].ckod = true;
    supply(&mut record.places[4], SUPPLEMENTAL_KEYS);
    for (nexus, saved) in [(0, 35), (2, 40), (15, 36)] {
        record.nexuses[nexus].lock = true;
        record.nexuses[nexus].saved_at_lock = saved;
    }
    for nexus in [0, 2, 4, 9, 15] {
        record.nexuses[nexus].registered = true;
    }
    record.nexuses[4].changed_by_another_nexus = true;
    record.nexuses[9].changed_by_vendor_event = true;
    record
}

/// The record of many kinds of set, with nobody's unit attention pending.
pub fn mixed_without_pending() -> Record {
    let mut record = mixed();
    for nexus in &mut record.nexuses {
        nexus.changed_by_another_nexus = false;
        nexus.changed_by_vendor_event = false;
    }
    record
}

/// A record with place 0 used though no nexus is ALL, and two places of LOCAL sets.
pub fn without_all_nexus() -> Record {
    let mut record = mixed();
    record.nexuses[9].scope = scope::PUBLIC;
    record.nexuses[9].changed_by_vendor_event = false;
    record.nexuses[0].scope = scope::PUBLIC;
    record.places[1] = Set::empty(42);
    record.counter = 42;
    record.put_words_right();
    record
}

/// A record with every place used: ALL nexus 9, LOCAL nexuses by place.
pub fn full(owners: [usize; 4]) -> Record {
    let mut record = Record::power_on();
    settle_all(&mut record, 9, 2, 3, 1);
    for (place, owner) in (1..PLACES).zip(owners) {
        settle(&mut record, place, owner, 2, 2, 1 + place as u32);
    }
    record.counter = 5;
    for nexus in &mut record.nexuses {
        nexus.registered = true;
    }
    record
}

/// A number near the counter, small, or any.
fn random_number(numbers: &mut Numbers, counter: u32) -> u32 {
    match numbers.below(6) {
        0..=2 => counter.wrapping_add(numbers.below(7) as u32).wrapping_sub(3),
        3 | 4 => numbers.below(8) as u32,
        _ => numbers.next() as u32,
    }
}

/// Key-associated data of any length.
fn random_kad<const LIMIT: usize>(numbers: &mut Numbers) -> Kad<LIMIT> {
    let length = if numbers.percent(40) { 0 } else { numbers.below(LIMIT + 1) };
    Kad::of(&numbers.bytes(length))
}

/// Any set in order.
fn random_set(numbers: &mut Numbers, owner: usize, scope: u8, counter: u32) -> Set {
    let mut set = used_set(owner as u8, scope, numbers.below(3) as u8, numbers.below(4) as u8, 0);
    set.number = random_number(numbers, counter);
    set.ceem = numbers.below(4) as u8;
    [set.rdmd, set.ckod, set.ckorp, set.ckorl] = [(); 4].map(|()| numbers.percent(50));
    set.key.copy_from_slice(&numbers.bytes(KEY_BYTES));
    let count = numbers.below(SUPPLEMENTAL_KEYS + 1);
    set.supplemental_count = count as u8;
    for key in set.supplemental_keys.iter_mut().take(count) {
        key.copy_from_slice(&numbers.bytes(KEY_BYTES));
    }
    set.u_kad = random_kad(numbers);
    set.a_kad = random_kad(numbers);
    set
}

/// Any well-formed record.
pub fn random_record(numbers: &mut Numbers) -> Record {
    let mut record = Record::power_on();
    let counter = match numbers.below(4) {
        0 => u32::MAX.wrapping_sub(numbers.below(6) as u32),
        1 => numbers.next() as u32,
        _ => numbers.below(12) as u32,
    };
    record.counter = counter;
    for place in 0..PLACES {
        record.places[place].number = random_number(numbers, counter);
    }
    let mut owners: Vec<usize> = (0..NEXUSES).collect();
    for at in 0..8 {
        let limit = if numbers.percent(70) { 8 } else { NEXUSES };
        owners.swap(at, numbers.below(limit));
    }
    if numbers.percent(60) {
        record.places[0] = random_set(numbers, owners[0], scope::ALL, counter);
        if numbers.percent(60) {
            record.nexuses[owners[0]].scope = scope::ALL;
        } else {
            record.places[0].owner = numbers.below(NEXUSES) as u8;
        }
    }
    for (place, owner) in (1..PLACES).zip(&owners[1..]) {
        if numbers.percent(65) {
            record.places[place] = random_set(numbers, *owner, scope::LOCAL, counter);
            record.nexuses[*owner].scope = scope::LOCAL;
        }
    }
    let pending = numbers.pick(&[0, 5, 40]);
    for nexus in 0..NEXUSES {
        let selected = record.selected_set(nexus).number;
        let other = random_number(numbers, counter);
        let nexus = &mut record.nexuses[nexus];
        nexus.lock = numbers.percent(50);
        nexus.saved_at_lock = if numbers.percent(50) { selected } else { other };
        nexus.last_local = random_number(numbers, counter);
        nexus.registered = numbers.percent(60);
        nexus.changed_by_another_nexus = numbers.percent(pending);
        nexus.changed_by_vendor_event = numbers.percent(pending);
    }
    record.put_words_right();
    record
}

/// The record's bytes with the words that its scopes say, if they can be read.
pub fn with_right_words(bytes: Vec<u8>) -> Vec<u8> {
    let Some(mut record) = record_bytes::load(&bytes) else { return bytes };
    record.put_words_right();
    record_bytes::give(&record)
}

/// The words of a record made wrong: bits turned, mostly one and mostly of a nexus; a nexus's bit in another word; two words
/// exchanged, or one lost; or anything.
pub fn random_wrong_words(numbers: &mut Numbers, record: &mut Record) {
    let words = &mut record.selection_words;
    let (place, other) = (numbers.below(PLACES), numbers.below(PLACES));
    let nexus = numbers.below(NEXUSES);
    match numbers.below(8) {
        0..=2 => {
            for _ in 0..numbers.pick(&[1, 1, 1, 2, 3]) {
                let bits = numbers.pick(&[NEXUSES, NEXUSES, 64]);
                words[numbers.below(PLACES)] ^= bit(numbers.below(bits));
            }
        }
        3 | 4 => {
            words.iter_mut().for_each(|word| *word &= !bit(nexus));
            words[place] |= bit(nexus);
        }
        5 => words.swap(place, other),
        6 => words[place] = numbers.pick(&[0, 0xFFFF, u64::MAX]),
        _ => words[place] = numbers.next(),
    }
}
