//! What an accepted Set Data Encryption page says.

use super::rules::number_at;
use super::HEADER_BYTES;
use crate::codes::{encryption, scope};
use crate::descriptors::{read_list, Kads};
use crate::record::Kad;
use crate::sizes::{A_KAD_BYTES, KEY_BYTES, U_KAD_BYTES};

/// The three kinds of accepted page.
#[derive(Clone, PartialEq, Eq, Debug)]
pub enum Request {
    /// 01: "With PUBLIC ... only SCOPE and LOCK are read".
    Public { lock: bool },
    /// LOCAL or ALL with SDK 0.
    Parameters(Parameters),
    /// LOCAL or ALL with SDK 1.
    SupplementalKey(SupplementalKey),
}

/// The parameters of a set to be established.
#[derive(Clone, PartialEq, Eq, Debug)]
pub struct Parameters {
    pub scope: u8,
    pub lock: bool,
    pub ceem: u8,
    pub rdmd: bool,
    pub ckod: bool,
    pub ckorp: bool,
    pub ckorl: bool,
    pub encryption: u8,
    pub decryption: u8,
    pub index: u8,
    pub key: Option<[u8; KEY_BYTES]>,
    pub u_kad: Kad<U_KAD_BYTES>,
    pub a_kad: Kad<A_KAD_BYTES>,
}

/// A key to be appended.
#[derive(Clone, PartialEq, Eq, Debug)]
pub struct SupplementalKey {
    pub key: [u8; KEY_BYTES],
}

/// Reads a page that breaks no rule. 01: "4: SCOPE bits 7–5, LOCK bit 0; 5: CEEM bits 7–6, RDMC 5–4,
/// SDK 3, CKOD 2, CKORP 1, CKORL 0".
pub(super) fn request(page: &[u8]) -> Request {
    let scope = page[4] >> 5;
    let lock = page[4] & 0x01 != 0;
    if scope == scope::PUBLIC {
        return Request::Public { lock };
    }
    let key_length = number_at(page, 18);
    let key = page[HEADER_BYTES..HEADER_BYTES + key_length].try_into().ok();
    if page[5] & 0x08 != 0 {
        let key = key.expect("rule SupplementalKeyLength holds");
        return Request::SupplementalKey(SupplementalKey { key });
    }
    let Kads { u_kad, a_kad } =
        read_list(page, HEADER_BYTES + key_length).expect("the rules of the list hold");
    Request::Parameters(Parameters {
        scope,
        lock,
        ceem: page[5] >> 6,
        // 01: "RDMD is 1 exactly for ENCRYPT with 11b."
        rdmd: page[6] == encryption::ENCRYPT && (page[5] >> 4) & 3 == 3,
        ckod: page[5] & 0x04 != 0,
        ckorp: page[5] & 0x02 != 0,
        ckorl: page[5] & 0x01 != 0,
        encryption: page[6],
        decryption: page[7],
        index: page[8],
        key,
        u_kad,
        a_kad,
    })
}
