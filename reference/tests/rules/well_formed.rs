//! Each clause of well-formedness.

use reference::codes::scope;
use reference::comparison::record_builder::{full, mixed, without_all_nexus};
use reference::record::Record;
use reference::well_formed::{broken_clauses, is_well_formed, Clause};

/// The clauses broken by a change of the record of many kinds of set; its words are those that the scopes then say.
fn after(change: impl Fn(&mut Record)) -> Vec<Clause> {
    let mut record = mixed();
    change(&mut record);
    record.put_words_right();
    broken_clauses(&record)
}

#[test]
fn records_in_order() {
    for record in [Record::power_on(), mixed(), without_all_nexus(), full([4, 3, 2, 1])] {
        assert!(is_well_formed(&record));
    }
}

#[test]
fn codes_owners_and_lengths() {
    assert_eq!(
        after(|record| record.places[1].scope = 3),
        [Clause::SetScopeInRange, Clause::OtherUsedPlacesHaveScopeLocal]
    );
    assert_eq!(after(|record| record.places[1].encryption = 3), [Clause::EncryptionInRange]);
    assert_eq!(after(|record| record.places[1].decryption = 4), [Clause::DecryptionInRange]);
    assert_eq!(after(|record| record.places[1].ceem = 4), [Clause::CeemInRange]);
    assert_eq!(after(|record| record.places[1].index = 0), [Clause::IndexOneInUsedPlace]);
    assert_eq!(after(|record| record.places[1].index = 2), [Clause::IndexOneInUsedPlace]);
    assert_eq!(after(|record| record.places[1].supplemental_count = 5), [Clause::SupplementalCountInRange]);
    assert_eq!(after(|record| record.places[1].u_kad.length = 33), [Clause::UKadLengthInRange]);
    assert_eq!(after(|record| record.places[1].a_kad.length = 13), [Clause::AKadLengthInRange]);
    assert_eq!(after(|record| record.nexuses[5].scope = 3), [Clause::NexusScopeInRange]);
    let mut record = without_all_nexus();
    record.places[0].owner = 16;
    assert_eq!(broken_clauses(&record), [Clause::OwnerInRange]);
}

#[test]
fn bytes_past_lengths_and_counts() {
    assert_eq!(after(|record| record.places[0].supplemental_keys[1][31] = 1), [Clause::KeysPastCountZero]);
    assert_eq!(after(|record| record.places[0].u_kad.bytes[5] = 1), [Clause::UKadPastLengthZero]);
    assert_eq!(after(|record| record.places[2].a_kad.bytes[4] = 1), [Clause::AKadPastLengthZero]);
    assert_eq!(after(|record| record.places[0].supplemental_keys[0] = [0; 32]), []);
}

#[test]
fn scopes_of_places() {
    let mut record = without_all_nexus();
    record.places[0].scope = scope::LOCAL;
    assert_eq!(broken_clauses(&record), [Clause::UsedPlaceZeroHasScopeAll]);
    assert_eq!(after(|record| record.places[1].scope = scope::ALL), [Clause::OtherUsedPlacesHaveScopeLocal]);
}

#[test]
fn local_owners() {
    assert_eq!(after(|record| record.nexuses[5].scope = scope::LOCAL), [Clause::LocalNexusOwnsAPlace]);
    assert_eq!(after(|record| record.nexuses[0].scope = scope::PUBLIC), [Clause::UsedPlaceOwnedByLocalNexus]);
    let two = after(|record| record.places[3] = record.places[2].clone());
    assert_eq!(two, [Clause::LocalNexusOwnsOnePlaceOnly]);
}

#[test]
fn all_owners() {
    assert_eq!(after(|record| record.nexuses[5].scope = scope::ALL), [Clause::OneAllNexusAtMost]);
    assert_eq!(after(|record| record.places[0].owner = 5), [Clause::AllNexusOwnsPlaceZero]);
    let mut record = Record::power_on();
    record.nexuses[0].scope = scope::ALL;
    assert_eq!(broken_clauses(&record), [Clause::AllNexusHasPlaceZeroUsed]);
}

#[test]
fn empty_places() {
    assert_eq!(after(|record| record.places[3].number = 0xFFFF_FFFF), []);
    assert_eq!(after(|record| record.places[3].owner = 1), [Clause::EmptyPlaceZero]);
    assert_eq!(after(|record| record.places[3].index = 1), [Clause::EmptyPlaceZero]);
    assert_eq!(after(|record| record.places[3].ckod = true), [Clause::EmptyPlaceZero]);
    assert_eq!(after(|record| record.places[3].key[31] = 1), [Clause::EmptyPlaceZero]);
    assert_eq!(after(|record| record.places[3].u_kad.length = 1), [Clause::EmptyPlaceZero]);
}

#[test]
fn words() {
    // ALL nexus 9 in place 0, nexuses 0, 3 and 15 LOCAL in places 1, 2 and 4
    assert_eq!(mixed().selection_words, [0x7FF6, 0x0001, 0x0008, 0, 0x8000]);
    for record in [Record::power_on(), mixed(), without_all_nexus(), full([4, 3, 2, 1])] {
        for place in 0..5 {
            for bit in 0..64 {
                let mut wrong = record.clone();
                wrong.selection_words[place] ^= 1 << bit;
                assert_eq!(
                    broken_clauses(&wrong),
                    [Clause::WordsAsTheScopesSay],
                    "bit {bit} of place {place}"
                );
            }
        }
    }
    for words in [
        [0xFFFF, 0, 0, 0, 0],
        [0, 0x0001, 0x0008, 0, 0x8000],
        [0x0200, 0x0001, 0x0008, 0, 0x8000],
        [0x7FF6, 0x0008, 0x0001, 0, 0x8000],
        [0x7FF4, 0x0001, 0x0008, 0x0002, 0x8000],
        [0xFFFF, 0x0001, 0x0008, 0, 0x8000],
        [0; 5],
    ] {
        let wrong = Record { selection_words: words, ..mixed() };
        assert_eq!(broken_clauses(&wrong), [Clause::WordsAsTheScopesSay], "{words:X?}");
    }
    // the words of before where a scope was changed
    let mut record = mixed();
    record.nexuses[3].scope = scope::PUBLIC;
    assert_eq!(broken_clauses(&record), [Clause::UsedPlaceOwnedByLocalNexus, Clause::WordsAsTheScopesSay]);
}
