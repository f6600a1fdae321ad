//! The order of a read's checks: 1, 2, 3, 4, 14, then 15 to 17.

use crate::codes::scope;
use crate::comparison::record_builder::{full, mixed, supply, without_all_nexus};
use crate::comparison::session::{load, power_on, read, Session, Sink, Stage};
use crate::record::{Record, Set};
use crate::selection_words::bit;
use crate::sizes::PLACES;

pub fn sessions(sink: &mut Sink) {
    not_well_formed(sink);
    nexus_above_15(sink);
    pending(sink);
}

/// The record with both unit attentions pending for every nexus.
fn all_pending(mut record: Record) -> Record {
    for nexus in &mut record.nexuses {
        nexus.changed_by_another_nexus = true;
        nexus.changed_by_vendor_event = true;
    }
    record
}

/// A change that breaks a clause of well-formedness.
type Change = fn(&mut Record);

/// Each clause of the sets and the nexuses broken, in the record of many kinds of set.
const CHANGES: [Change; 22] = [
    |record| record.places[1].scope = 3,
    |record| record.places[1].encryption = 3,
    |record| record.places[4].decryption = 4,
    |record| record.places[1].ceem = 4,
    |record| record.places[1].index = 2,
    |record| record.places[4].supplemental_count = 5,
    |record| record.places[1].u_kad.length = 33,
    |record| record.places[1].a_kad.length = 13,
    |record| record.nexuses[5].scope = 3,
    |record| record.places[0].supplemental_keys[1][31] = 1,
    |record| record.places[0].u_kad.bytes[5] = 1,
    |record| record.places[2].a_kad.bytes[4] = 1,
    |record| record.places[1].scope = scope::ALL,
    |record| record.nexuses[5].scope = scope::LOCAL,
    |record| record.nexuses[0].scope = scope::PUBLIC,
    |record| record.places[3] = record.places[2].clone(),
    |record| record.nexuses[5].scope = scope::ALL,
    |record| record.places[0].owner = 5,
    |record| record.places[0] = Set::empty(8),
    |record| record.places[3].key[31] = 1,
    |record| {
        *record = without_all_nexus();
        record.places[0].owner = 16;
    },
    |record| {
        *record = without_all_nexus();
        record.places[0].scope = scope::LOCAL;
    },
];

/// Records that break a clause of the sets and the nexuses, with the words that their scopes say.
pub fn not_well_formed_but_for_words() -> Vec<Record> {
    let broken = |change: Change| {
        let mut record = mixed();
        change(&mut record);
        record.put_words_right();
        record
    };
    CHANGES.map(broken).to_vec()
}

/// Records that break each clause, the words' own last.
pub fn not_well_formed_records() -> Vec<Record> {
    let mut wrong_word = mixed();
    wrong_word.selection_words[3] = bit(5);
    [not_well_formed_but_for_words(), vec![wrong_word]].concat()
}

/// 1 comes before 2, 3, 4 and 14, and whatever the read would be.
fn not_well_formed(sink: &mut Sink) {
    for broken in not_well_formed_records() {
        for waiting in [false, true] {
            let record = if waiting { all_pending(broken.clone()) } else { broken.clone() };
            let mut stage = Stage::new("reads on a record that isn't well formed", record, sink);
            for call in [read(3, 1, 0), read(6, 0, 255), read(3, 3, 9), read(16, 0, 255), read(255, 9, 9)] {
                stage.call(call);
            }
            stage.finish();
        }
    }
}

/// 2 comes before 3, 4 and 14.
fn nexus_above_15(sink: &mut Sink) {
    for record in [mixed(), all_pending(mixed()), Record::power_on()] {
        let mut stage = Stage::new("reads of a nexus above 15", record, sink);
        for nexus in [16, 17, 19, 25, 31, 32, 127, 128, 200, 254, 255] {
            for (block_kind, key) in [(0, 255), (1, 0), (1, 9), (3, 255), (255, 0), (2, 255)] {
                stage.call(read(nexus, block_kind, key));
            }
        }
        stage.finish();
    }
}

/// 3 comes before 4, and both before 14 to 17 and before each read that is done; the third read is decided, and
/// the next nexus keeps its flags.
fn pending(sink: &mut Sink) {
    let arguments = [(0, 255), (1, 0), (1, 1), (1, 255), (2, 255), (3, 255), (0, 2), (255, 254)];
    for (encryption, decryption) in [(2, 0), (0, 0), (2, 1), (1, 1), (2, 2), (0, 2), (1, 3), (2, 3)] {
        let mut record = full([0, 1, 2, 3]);
        for place in 0..PLACES {
            record.places[place].encryption = encryption;
            record.places[place].decryption = decryption;
            supply(&mut record.places[place], 1);
        }
        for nexus in [2, 9, 5] {
            for bits in 0..4 {
                let mut record = record.clone();
                for at in [nexus, nexus + 1] {
                    record.nexuses[usize::from(at)].changed_by_another_nexus = bits & 1 != 0;
                    record.nexuses[usize::from(at)].changed_by_vendor_event = bits & 2 != 0;
                    record.nexuses[usize::from(at)].lock = true;
                }
                let mut commands = vec![power_on()];
                for (block_kind, key) in arguments {
                    let read = read(nexus, block_kind, key);
                    commands.extend([load(&record), read.clone(), read.clone(), read]);
                }
                sink(Session { name: "reads with unit attentions pending".to_string(), commands });
            }
        }
    }
}
