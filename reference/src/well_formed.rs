//! 01: "A device record is well formed if ...", clause by clause; and 02, request 7: "a record where they differ is not
//! well formed".

use crate::codes::{decryption, encryption, scope, ALGORITHM, LARGEST_CEEM};
use crate::record::{Kad, Record, Set};
use crate::sizes::{A_KAD_BYTES, NEXUSES, PLACES, SUPPLEMENTAL_KEYS, U_KAD_BYTES};

/// The clauses of the sentence, one for each thing that can break alone.
#[derive(Clone, Copy, PartialEq, Eq, PartialOrd, Ord, Debug)]
pub enum Clause {
    SetScopeInRange,
    EncryptionInRange,
    DecryptionInRange,
    CeemInRange,
    IndexOneInUsedPlace,
    OwnerInRange,
    SupplementalCountInRange,
    UKadLengthInRange,
    AKadLengthInRange,
    NexusScopeInRange,
    KeysPastCountZero,
    UKadPastLengthZero,
    AKadPastLengthZero,
    UsedPlaceZeroHasScopeAll,
    OtherUsedPlacesHaveScopeLocal,
    LocalNexusOwnsAPlace,
    LocalNexusOwnsOnePlaceOnly,
    UsedPlaceOwnedByLocalNexus,
    OneAllNexusAtMost,
    AllNexusHasPlaceZeroUsed,
    AllNexusOwnsPlaceZero,
    EmptyPlaceZero,
    WordsAsTheScopesSay,
}

impl Clause {
    pub const EVERY: [Clause; 23] = [
        Clause::SetScopeInRange,
        Clause::EncryptionInRange,
        Clause::DecryptionInRange,
        Clause::CeemInRange,
        Clause::IndexOneInUsedPlace,
        Clause::OwnerInRange,
        Clause::SupplementalCountInRange,
        Clause::UKadLengthInRange,
        Clause::AKadLengthInRange,
        Clause::NexusScopeInRange,
        Clause::KeysPastCountZero,
        Clause::UKadPastLengthZero,
        Clause::AKadPastLengthZero,
        Clause::UsedPlaceZeroHasScopeAll,
        Clause::OtherUsedPlacesHaveScopeLocal,
        Clause::LocalNexusOwnsAPlace,
        Clause::LocalNexusOwnsOnePlaceOnly,
        Clause::UsedPlaceOwnedByLocalNexus,
        Clause::OneAllNexusAtMost,
        Clause::AllNexusHasPlaceZeroUsed,
        Clause::AllNexusOwnsPlaceZero,
        Clause::EmptyPlaceZero,
        Clause::WordsAsTheScopesSay,
    ];

    /// Whether some record breaks this clause and no other. A set scope of 3 or more makes the place
    /// used with a scope that is neither ALL nor LOCAL, so it always breaks a second clause.
    pub fn breaks_alone(self) -> bool {
        self != Clause::SetScopeInRange
    }
}

/// 01: "A device record is well formed if ...".
pub fn is_well_formed(record: &Record) -> bool {
    broken_clauses(record).is_empty()
}

/// Every clause the record breaks, each once, in the order of `Clause`.
pub fn broken_clauses(record: &Record) -> Vec<Clause> {
    let mut broken = Vec::new();
    for set in &record.places {
        ranges(set, &mut broken);
        tails(set, &mut broken);
        emptiness(set, &mut broken);
    }
    scopes_of_places(record, &mut broken);
    local_ownership(record, &mut broken);
    all_ownership(record, &mut broken);
    words(record, &mut broken);
    broken.sort();
    broken.dedup();
    broken
}

/// 01: "codes, owners and lengths are in range (index 1 in a used place)".
fn ranges(set: &Set, broken: &mut Vec<Clause>) {
    let mut holds = |clause, condition: bool| {
        if !condition {
            broken.push(clause);
        }
    };
    holds(Clause::SetScopeInRange, set.scope <= scope::ALL);
    holds(Clause::EncryptionInRange, set.encryption <= encryption::ENCRYPT);
    holds(Clause::DecryptionInRange, set.decryption <= decryption::MIXED);
    holds(Clause::CeemInRange, set.ceem <= LARGEST_CEEM);
    holds(Clause::IndexOneInUsedPlace, !set.is_used() || set.index == ALGORITHM);
    holds(Clause::OwnerInRange, usize::from(set.owner) < NEXUSES);
    holds(Clause::SupplementalCountInRange, usize::from(set.supplemental_count) <= SUPPLEMENTAL_KEYS);
    holds(Clause::UKadLengthInRange, usize::from(set.u_kad.length) <= U_KAD_BYTES);
    holds(Clause::AKadLengthInRange, usize::from(set.a_kad.length) <= A_KAD_BYTES);
}

/// 01: "bytes or keys past a length or count are zero".
fn tails(set: &Set, broken: &mut Vec<Clause>) {
    let keys_past_count = set.supplemental_keys.iter().skip(usize::from(set.supplemental_count));
    if keys_past_count.flatten().any(|&byte| byte != 0) {
        broken.push(Clause::KeysPastCountZero);
    }
    if past_length(&set.u_kad) {
        broken.push(Clause::UKadPastLengthZero);
    }
    if past_length(&set.a_kad) {
        broken.push(Clause::AKadPastLengthZero);
    }
}

/// Whether a byte past the length isn't zero.
fn past_length<const LIMIT: usize>(kad: &Kad<LIMIT>) -> bool {
    kad.bytes.iter().skip(usize::from(kad.length)).any(|&byte| byte != 0)
}

/// 01: "every empty place is zero but for its instance number".
fn emptiness(set: &Set, broken: &mut Vec<Clause>) {
    if !set.is_used() && *set != Set::empty(set.number) {
        broken.push(Clause::EmptyPlaceZero);
    }
}

/// 01: "a used place 0 has scope ALL and any other used place LOCAL".
fn scopes_of_places(record: &Record, broken: &mut Vec<Clause>) {
    for (place, set) in record.places.iter().enumerate() {
        if set.is_used() && place == 0 && set.scope != scope::ALL {
            broken.push(Clause::UsedPlaceZeroHasScopeAll);
        }
        if set.is_used() && place != 0 && set.scope != scope::LOCAL {
            broken.push(Clause::OtherUsedPlacesHaveScopeLocal);
        }
    }
}

/// 01: "each LOCAL nexus owns exactly one used place of 1 to 4; each used place of 1 to 4 is owned by a
/// LOCAL nexus".
fn local_ownership(record: &Record, broken: &mut Vec<Clause>) {
    let used = || record.places[1..PLACES].iter().filter(|set| set.is_used());
    for (number, nexus) in record.nexuses.iter().enumerate() {
        if nexus.scope > scope::ALL {
            broken.push(Clause::NexusScopeInRange);
        }
        if nexus.scope == scope::LOCAL {
            match used().filter(|set| usize::from(set.owner) == number).count() {
                0 => broken.push(Clause::LocalNexusOwnsAPlace),
                1 => {}
                _ => broken.push(Clause::LocalNexusOwnsOnePlaceOnly),
            }
        }
    }
    for set in used() {
        let owner = record.nexuses.get(usize::from(set.owner));
        if owner.is_none_or(|nexus| nexus.scope != scope::LOCAL) {
            broken.push(Clause::UsedPlaceOwnedByLocalNexus);
        }
    }
}

/// 01: "at most one nexus has scope ALL, and then place 0 is used and that nexus owns it".
fn all_ownership(record: &Record, broken: &mut Vec<Clause>) {
    let all: Vec<usize> = (0..NEXUSES).filter(|&nexus| record.nexuses[nexus].scope == scope::ALL).collect();
    match all[..] {
        [] => {}
        [nexus] => {
            let set = &record.places[0];
            if !set.is_used() {
                broken.push(Clause::AllNexusHasPlaceZeroUsed);
            } else if usize::from(set.owner) != nexus {
                broken.push(Clause::AllNexusOwnsPlaceZero);
            }
        }
        _ => broken.push(Clause::OneAllNexusAtMost),
    }
}

/// 02, request 7: "a record where they differ is not well formed", every bit of a word included.
fn words(record: &Record, broken: &mut Vec<Clause>) {
    if record.selection_words != record.words_by_scopes() {
        broken.push(Clause::WordsAsTheScopesSay);
    }
}
