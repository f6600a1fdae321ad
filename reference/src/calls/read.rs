//! 02, request 1: the read decision.

use crate::account::{ReadCell, Rule};
use crate::answer::Refused;
use crate::codes::{block_kind, decryption, opening_key};
use crate::controller::Controller;
use crate::record::Set;

/// 02, request 1: "Done: plain, raw or decrypted".
#[derive(Clone, Copy, PartialEq, Eq, Debug)]
pub enum ReadAs {
    Plain,
    Raw,
    Decrypted,
}

/// 02, request 1: "with the place".
#[derive(Clone, Copy, PartialEq, Eq, Debug)]
pub struct ReadBlock {
    pub as_what: ReadAs,
    pub place: usize,
}

impl Controller {
    /// 02, request 1: "a call with nexus, block kind and the key that the cipher engine reports. Checks 1 to 4 as
    /// for a write, then 14, then 15 to 17".
    pub fn read(&mut self, nexus: u8, block_kind: u8, key: u8) -> Result<ReadBlock, Refused> {
        self.check_record()?;
        let nexus = self.check_nexus(nexus)?;
        self.check_pending(nexus)?;
        let place = self.record.selected_place(nexus);
        let set = &self.record.places[place];
        self.account.read_cell = Some(ReadCell {
            encryption: set.encryption,
            decryption: set.decryption,
            supplemental_count: set.supplemental_count,
            block_kind,
            key,
        });
        // "The lock doesn't stop reads."
        let reader = &self.record.nexuses[nexus];
        match (reader.lock, reader.saved_at_lock != set.number) {
            (true, true) => self.account.note_number(Rule::ReadNotStoppedByLock, place, set.number),
            (true, false) => self.account.note_nexus(Rule::ReadLockedAndUnchanged, nexus),
            (false, _) => {}
        }
        let broken = not_known(set, block_kind, key);
        if !broken.is_empty() {
            broken.into_iter().for_each(|rule| self.account.note_place(rule, place));
            return Err(Refused::BlockKindOrKeyNotKnown);
        }
        let (decision, rule) = decide(set.decryption, block_kind, key);
        self.account.note_place(rule, place);
        decision.map(|as_what| ReadBlock { as_what, place })
    }
}

/// Check 14: "Kinds above 2, and key numbers that are neither 255 nor a key the selected set has, give 14"; "where
/// it holds none, only 255 is taken; else 0 to its count of supplemental keys, or 255".
fn not_known(set: &Set, block_kind: u8, key: u8) -> Vec<Rule> {
    let mut broken = Vec::new();
    if block_kind > block_kind::ENCRYPTED_OTHERWISE {
        broken.push(Rule::ReadBlockKindAbove2);
    }
    if key != opening_key::NONE {
        if !set.holds_main_key() {
            broken.push(Rule::ReadKeyWithoutMainKey);
        } else if key > set.supplemental_count {
            broken.push(Rule::ReadKeyAboveCount);
        }
    }
    broken
}

/// "then 15 to 17 by (decryption) mode of the set in use", for a kind of 0 to 2 and a key that check 14 took.
fn decide(mode: u8, block_kind: u8, key: u8) -> (Result<ReadAs, Refused>, Rule) {
    match (mode, block_kind) {
        // "Under DISABLE plain passes and others get 15".
        (decryption::DISABLE, block_kind::PLAIN) => (Ok(ReadAs::Plain), Rule::ReadsPlainUnderDisable),
        (decryption::DISABLE, _) => (Err(Refused::BlockNotDecryptable), Rule::ReadEncryptedUnderDisable),
        // "RAW passes all, kinds 1 and 2 as raw."
        (decryption::RAW, block_kind::PLAIN) => (Ok(ReadAs::Plain), Rule::ReadsPlainUnderRaw),
        (decryption::RAW, _) => (Ok(ReadAs::Raw), Rule::ReadsRaw),
        // "DECRYPT gives 16 (7/74/02) for plain; MIXED passes it."
        (decryption::DECRYPT, block_kind::PLAIN) => {
            (Err(Refused::PlainWhileDecrypting), Rule::ReadPlainUnderDecrypt)
        }
        (_, block_kind::PLAIN) => (Ok(ReadAs::Plain), Rule::ReadsPlainUnderMixed),
        // "In both, kind 1 is decrypted if a key opened it, else 17 (7/74/03)".
        (_, block_kind::ENCRYPTED_UNDER_ALGORITHM_1) => match key {
            opening_key::NONE => (Err(Refused::OpenedByNoKey), Rule::ReadOpenedByNoKey),
            opening_key::MAIN => (Ok(ReadAs::Decrypted), Rule::ReadsDecryptedByMainKey),
            _ => (Ok(ReadAs::Decrypted), Rule::ReadsDecryptedBySupplementalKey),
        },
        // "kind 2 gives 15".
        _ => (Err(Refused::BlockNotDecryptable), Rule::ReadEncryptedOtherwise),
    }
}
