//! The read decision over every mixture of modes and supplemental keys, block kind and key, at every place; every
//! value of block kind and key; fields a read doesn't have.

use crate::comparison::record_builder::{full, mixed, settle, supply};
use crate::comparison::session::{read, Sink, Stage};
use crate::record::{Kad, Record, Set};
use crate::record_bytes::RECORD_BYTES;
use crate::sizes::{KEY_BYTES, PLACES, SUPPLEMENTAL_KEYS};
use crate::stream::Command;

/// The block kinds and the keys of the table.
const KINDS: [u8; 5] = [0, 1, 2, 3, 255];
const KEYS: [u8; 8] = [0, 1, 2, 3, 4, 5, 254, 255];
/// The sets of the table: three encryption modes, four decryption modes, none to four supplemental keys.
const SETS: usize = 3 * 4 * (SUPPLEMENTAL_KEYS + 1);

pub fn sessions(sink: &mut Sink) {
    table(sink);
    default_set(sink);
    every_kind_and_key(sink);
    unread_fields(sink);
    every_nexus(sink);
}

/// Gives a set the modes and the supplemental keys of the table's set of this number.
fn take_modes_and_keys(set: &mut Set, number: usize) {
    set.encryption = (number % 3) as u8;
    set.decryption = (number / 3 % 4) as u8;
    supply(set, number / 12);
}

/// A record with every place used, each with another set of the table. LOCAL nexuses 0 to 3 own places 1 to 4, nexus
/// 9 is ALL, the others are PUBLIC. Whatever a read doesn't ask for differs from place to place: the bytes of the
/// keys, key-associated data, CEEM, RDMD and CK bits, marks, and locks on a number that changed or didn't.
fn table_record(first: usize) -> Record {
    let mut record = full([0, 1, 2, 3]);
    for place in 0..PLACES {
        let set = &mut record.places[place];
        take_modes_and_keys(set, (first + 17 * place) % SETS);
        set.ceem = (place % 4) as u8;
        set.rdmd = place % 2 == 0;
        set.ckod = place % 3 == 0;
    }
    record.places[1].key = [0; KEY_BYTES];
    record.places[2].u_kad = Kad::of(b"label");
    record.places[3].key = [0; KEY_BYTES];
    record.places[4].supplemental_keys = [[0; KEY_BYTES]; SUPPLEMENTAL_KEYS];
    for (nexus, lock, saved) in
        [(0, true, 1), (1, true, 3), (2, false, 9), (3, false, 5), (9, true, 0), (5, true, 7)]
    {
        record.nexuses[nexus].lock = lock;
        record.nexuses[nexus].saved_at_lock = saved;
        record.nexuses[nexus].registered = nexus % 2 == 0;
    }
    record
}

/// Every block kind and key of the table, read by some nexuses.
fn read_table(stage: &mut Stage, nexuses: &[u8]) {
    for &nexus in nexuses {
        for block_kind in KINDS {
            KEYS.into_iter().for_each(|key| stage.call(read(nexus, block_kind, key)));
        }
    }
}

/// Every cell of the table at every place, by LOCAL owners, the ALL nexus and a PUBLIC one.
fn table(sink: &mut Sink) {
    for first in 0..SETS {
        let mut stage = Stage::new("table of reads", table_record(first), sink);
        read_table(&mut stage, &[0, 1, 2, 3, 9, 5]);
        stage.finish();
    }
}

/// 01: "An empty place 0 is the default set", whatever its number and the sets in other places.
fn default_set(sink: &mut Sink) {
    let mut stage = Stage::new("reads after power-on", Record::power_on(), sink);
    read_table(&mut stage, &[0]);
    stage.finish();
    let mut record = Record::power_on();
    record.counter = 9;
    record.places[0].number = 9;
    settle(&mut record, 2, 4, 2, 3, 8);
    record.nexuses[6].lock = true;
    let mut stage = Stage::new("reads with a default set", record, sink);
    read_table(&mut stage, &[6]);
    stage.finish();
}

/// Every block kind with some keys, and every key with the kinds there are: with a main key and two supplemental
/// ones under each decryption mode, and without a main key.
fn every_kind_and_key(sink: &mut Sink) {
    for (encryption, decryption) in [(2, 0), (2, 1), (2, 2), (0, 3), (1, 1)] {
        let mut record = Record::power_on();
        settle(&mut record, 3, 2, encryption, decryption, 6);
        supply(&mut record.places[3], 2);
        let mut stage = Stage::new("values of block kind and key", record, sink);
        for value in 0..=255 {
            for key in [0, 2, 255] {
                stage.call(read(2, value, key));
            }
            for block_kind in 0..=2 {
                stage.call(read(2, block_kind, value));
            }
        }
        stage.finish();
    }
}

/// "protocol, port and L are ignored, and no data follow".
fn unread_fields(sink: &mut Sink) {
    let fields = [
        (0x20, 0, 0),
        (0xFF, 0, 0),
        (0, 1, 0),
        (0, 255, 0),
        (0, 0, 1),
        (0, 0, 2),
        (0, 0, 8),
        (0, 0, RECORD_BYTES as u16),
        (0, 0, 0xFFFF),
        (0x99, 0x77, 0x4321),
    ];
    let reads = [
        read(3, 1, 0),
        read(3, 0, 255),
        read(3, 1, 255),
        read(3, 2, 0),
        read(3, 1, 1),
        read(0, 1, 255),
        read(4, 0, 255),
        read(5, 0, 1),
        read(9, 0, 1),
        read(16, 0, 255),
    ];
    let mut stage = Stage::new("fields a read doesn't have", mixed(), sink);
    for (protocol, port, length) in fields {
        for read in &reads {
            stage.call(Command { protocol, port, length, ..read.clone() });
        }
    }
    stage.finish();
}

/// Every nexus reads each kind with no key, the main key and each supplemental key.
fn every_nexus(sink: &mut Sink) {
    let mut stage = Stage::new("reads of every nexus", mixed(), sink);
    for nexus in 0..=16 {
        for block_kind in 0..=3 {
            for key in [0, 1, 4, 5, 255] {
                stage.call(read(nexus, block_kind, key));
            }
        }
    }
    stage.finish();
}
