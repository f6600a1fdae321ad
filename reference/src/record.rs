//! The device record of 01, "What the controller holds".

use crate::codes::{decryption, encryption, scope};
use crate::selection_words::AT_POWER_ON;
use crate::sizes::{A_KAD_BYTES, KEY_BYTES, NEXUSES, PLACES, SUPPLEMENTAL_KEYS, U_KAD_BYTES};

/// Key-associated data of 01: a length and as many bytes as the kind can have.
#[derive(Clone, Copy, PartialEq, Eq, Debug)]
pub struct Kad<const LIMIT: usize> {
    pub length: u8,
    pub bytes: [u8; LIMIT],
}

impl<const LIMIT: usize> Kad<LIMIT> {
    /// 01, "every empty place is zero": no key-associated data.
    pub const NONE: Self = Kad { length: 0, bytes: [0; LIMIT] };

    /// Data of 1 to `LIMIT` bytes; 01: "bytes ... past a length ... are zero".
    pub fn of(data: &[u8]) -> Self {
        let mut bytes = [0; LIMIT];
        bytes[..data.len()].copy_from_slice(data);
        Kad { length: data.len() as u8, bytes }
    }

    /// The bytes the length covers.
    pub fn data(&self) -> &[u8] {
        &self.bytes[..usize::from(self.length)]
    }
}

/// One place's set; 01: "Each set: owner, scope, ... A-KAD". The fields are bytes as they come,
/// so that a record which isn't well formed can be held too.
#[derive(Clone, PartialEq, Eq, Debug)]
pub struct Set {
    pub owner: u8,
    pub scope: u8,
    pub encryption: u8,
    pub decryption: u8,
    pub index: u8,
    pub number: u32,
    pub ceem: u8,
    pub rdmd: bool,
    pub ckod: bool,
    pub ckorp: bool,
    pub ckorl: bool,
    pub key: [u8; KEY_BYTES],
    pub supplemental_count: u8,
    pub supplemental_keys: [[u8; KEY_BYTES]; SUPPLEMENTAL_KEYS],
    pub u_kad: Kad<U_KAD_BYTES>,
    pub a_kad: Kad<A_KAD_BYTES>,
}

impl Set {
    /// 01: "every empty place is zero but for its instance number".
    pub const fn empty(number: u32) -> Self {
        Set {
            owner: 0,
            scope: scope::PUBLIC,
            encryption: 0,
            decryption: 0,
            index: 0,
            number,
            ceem: 0,
            rdmd: false,
            ckod: false,
            ckorp: false,
            ckorl: false,
            key: [0; KEY_BYTES],
            supplemental_count: 0,
            supplemental_keys: [[0; KEY_BYTES]; SUPPLEMENTAL_KEYS],
            u_kad: Kad::NONE,
            a_kad: Kad::NONE,
        }
    }

    /// 01: "A place is used when its set's scope isn't 0."
    pub fn is_used(&self) -> bool {
        self.scope != 0
    }

    /// 02, request 1: "A set holds a main key exactly where its modes ask a page for one (encryption 2, or
    /// decryption 2 or 3)".
    pub fn holds_main_key(&self) -> bool {
        self.encryption == encryption::ENCRYPT
            || matches!(self.decryption, decryption::DECRYPT | decryption::MIXED)
    }
}

/// One nexus; 01: "Each nexus: scope, lock, ... two pending unit attention flags."
#[derive(Clone, Copy, PartialEq, Eq, Debug)]
pub struct Nexus {
    pub scope: u8,
    pub lock: bool,
    pub saved_at_lock: u32,
    pub last_local: u32,
    pub registered: bool,
    pub changed_by_another_nexus: bool,
    pub changed_by_vendor_event: bool,
}

impl Nexus {
    /// 01: power-on "gives all zeros".
    pub const ZERO: Self = Nexus {
        scope: scope::PUBLIC,
        lock: false,
        saved_at_lock: 0,
        last_local: 0,
        registered: false,
        changed_by_another_nexus: false,
        changed_by_vendor_event: false,
    };
}

/// The device record; 01: places, nexuses and "the running counter"; 02, request 7: "beside each place one word". Of a
/// record that isn't well formed the words may be any.
#[derive(Clone, PartialEq, Eq, Debug)]
pub struct Record {
    pub counter: u32,
    pub places: [Set; PLACES],
    pub nexuses: [Nexus; NEXUSES],
    pub selection_words: [u64; PLACES],
}

impl Record {
    /// 01: "Power-on ... gives all zeros"; 02, request 7: but for place 0's word.
    pub const fn power_on() -> Self {
        Record {
            counter: 0,
            places: [const { Set::empty(0) }; PLACES],
            nexuses: [Nexus::ZERO; NEXUSES],
            selection_words: AT_POWER_ON,
        }
    }

    /// The used place of 1 to 4 that a LOCAL nexus owns (01: "A LOCAL nexus uses its own place").
    pub fn local_place(&self, nexus: usize) -> Option<usize> {
        if self.nexuses[nexus].scope != scope::LOCAL {
            return None;
        }
        (1..PLACES)
            .find(|&place| self.places[place].is_used() && usize::from(self.places[place].owner) == nexus)
    }

    /// 01: "A LOCAL nexus uses its own place; PUBLIC and ALL nexuses use place 0."
    pub fn selected_place(&self, nexus: usize) -> usize {
        self.local_place(nexus).unwrap_or(0)
    }

    /// The set in the place the nexus has selected. 01: "An empty place 0 is the default set".
    pub fn selected_set(&self, nexus: usize) -> &Set {
        &self.places[self.selected_place(nexus)]
    }
}
