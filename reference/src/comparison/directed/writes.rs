//! The write decision over every mode, lock, saved number, support, and kind of nexus.

use crate::codes::scope;
use crate::comparison::record_builder::{settle, settle_all};
use crate::comparison::session::{write, Sink, Stage};
use crate::record::Record;

pub fn sessions(sink: &mut Sink) {
    for encryption in 0..3 {
        for decryption in 0..4 {
            for (lock, saved) in [(false, 7), (false, 8), (true, 6), (true, 7), (true, 8), (true, 0)] {
                let mut stage =
                    Stage::new("write decision", record(encryption, decryption, lock, saved), sink);
                for nexus in [0, 1, 2, 15] {
                    for supported in [true, false] {
                        stage.call(write(nexus, supported));
                    }
                }
                stage.finish();
            }
        }
    }
    empty_place(sink);
}

/// Nexus 0 is LOCAL in place 3 with number 7, nexus 1 is ALL with number 8, 2 and 15 are PUBLIC.
fn record(encryption: u8, decryption: u8, lock: bool, saved: u32) -> Record {
    let mut record = Record::power_on();
    record.counter = 8;
    settle(&mut record, 3, 0, encryption, decryption, 7);
    settle_all(&mut record, 1, (encryption + 1) % 3, decryption, 8);
    for nexus in [0, 1, 2] {
        record.nexuses[nexus].lock = lock;
        record.nexuses[nexus].saved_at_lock = saved;
        record.nexuses[nexus].last_local = saved;
    }
    record
}

/// A default set whose number isn't 0; a LOCAL set whose number equals place 0's.
fn empty_place(sink: &mut Sink) {
    let mut record = Record::power_on();
    record.counter = 9;
    record.places[0].number = 9;
    settle(&mut record, 1, 4, 2, 2, 9);
    for (nexus, saved) in [(4, 9), (5, 9), (6, 0)] {
        record.nexuses[nexus].lock = true;
        record.nexuses[nexus].saved_at_lock = saved;
    }
    let mut stage = Stage::new("write with a default set", record.clone(), sink);
    for nexus in [4, 5, 6, 7] {
        stage.call(write(nexus, true));
        stage.call(write(nexus, false));
    }
    stage.finish();
    record.nexuses[4].scope = scope::PUBLIC;
    record.put_words_right();
    let mut stage = Stage::new("write on a record that isn't well formed", record, sink);
    stage.call(write(5, true));
    stage.call(write(16, true));
    stage.finish();
}
