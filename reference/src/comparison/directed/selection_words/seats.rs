//! Records in which five nexuses in a row own the places, so that in turn each nexus is in each place.

use crate::codes::{decryption, encryption, scope};
use crate::comparison::record_builder::{settle, settle_all};
use crate::record::{Record, Set};
use crate::sizes::{NEXUSES, PLACES};

/// A turn of the nexuses.
#[derive(Clone, Copy)]
pub struct Seats {
    turn: usize,
}

impl Seats {
    /// Every turn.
    pub fn every() -> impl Iterator<Item = Seats> {
        (0..NEXUSES).map(|turn| Seats { turn })
    }

    /// The nexus that owns a place.
    pub fn owner(self, place: usize) -> u8 {
        ((self.turn + place) % NEXUSES) as u8
    }

    /// A nexus that owns no place, so that place 0 serves it.
    pub fn newcomer(self) -> u8 {
        self.owner(PLACES)
    }

    /// A record with every place used and nothing pending; no set has a CK bit, and no nexus a lock. All nexuses are registered,
    /// or none.
    pub fn record(self, registered: bool) -> Record {
        let mut record = Record::power_on();
        let owner = |place| usize::from(self.owner(place));
        settle_all(&mut record, owner(0), encryption::ENCRYPT, decryption::MIXED, 1);
        for place in 1..PLACES {
            let number = 1 + place as u32;
            settle(&mut record, place, owner(place), encryption::ENCRYPT, decryption::DECRYPT, number);
        }
        record.counter = PLACES as u32;
        record.nexuses.iter_mut().for_each(|nexus| nexus.registered = registered);
        record
    }
}

/// The record with a place empty. Its number stays, and its owner is PUBLIC.
pub fn emptied(record: &Record, place: usize) -> Record {
    let mut emptied = record.clone();
    emptied.nexuses[usize::from(record.places[place].owner)].scope = scope::PUBLIC;
    emptied.places[place] = Set::empty(record.places[place].number);
    emptied.put_words_right();
    emptied
}
