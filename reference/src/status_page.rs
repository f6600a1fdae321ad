//! 01, page 0020h: the status page's writer and, for host tools, its reader.

use crate::answer::{Broken, Refused};
use crate::codes::{decryption, encryption, page_code, scope, ALGORITHM};
use crate::descriptors::{read_list, write_list, DescriptorRule, Kads};
use crate::record::{Kad, Set};
use crate::sizes::{A_KAD_BYTES, U_KAD_BYTES};

/// Bytes 0 to 23, before the descriptors.
pub const HEADER_BYTES: usize = 24;

/// Writes the status page of a nexus; 01: "0020h (000, table 3): length; byte 4 nexus scope bits 7–5, set
/// scope bits 2–0; ...".
pub fn write(nexus_scope: u8, set: &Set) -> Vec<u8> {
    let mut page = vec![0; HEADER_BYTES];
    page[4] = nexus_scope << 5 | set.scope;
    page[5] = set.encryption;
    page[6] = set.decryption;
    page[7] = set.index;
    page[8..12].copy_from_slice(&set.number.to_be_bytes());
    page[12] = set.ceem << 1 | u8::from(set.rdmd);
    write_list(&set.u_kad, &set.a_kad, &mut page);
    let length = page.len() as u16 - 4;
    page[..2].copy_from_slice(&page_code::STATUS.to_be_bytes());
    page[2..4].copy_from_slice(&length.to_be_bytes());
    page
}

/// What a status page says.
#[derive(Clone, PartialEq, Eq, Debug)]
pub struct Status {
    pub nexus_scope: u8,
    pub set_scope: u8,
    pub encryption: u8,
    pub decryption: u8,
    pub index: u8,
    pub number: u32,
    pub ceems: u8,
    pub rdmd: bool,
    pub u_kad: Kad<U_KAD_BYTES>,
    pub a_kad: Kad<A_KAD_BYTES>,
}

/// One rule of the status reader.
#[derive(Clone, Copy, PartialEq, Eq, PartialOrd, Ord, Debug)]
pub enum StatusRule {
    TwentyFourBytesAtLeast,
    LengthIsByteCount,
    PageCode,
    NexusScope,
    FixedZeroBitsOfByte4,
    SetScope,
    EncryptionMode,
    DecryptionMode,
    AlgorithmIndex,
    FixedZeroBitsOfByte12,
    FixedZeroByte(u8),
    Descriptor(DescriptorRule),
}

impl StatusRule {
    /// Every rule.
    pub fn every() -> Vec<StatusRule> {
        let mut every = vec![
            StatusRule::TwentyFourBytesAtLeast,
            StatusRule::LengthIsByteCount,
            StatusRule::PageCode,
            StatusRule::NexusScope,
            StatusRule::FixedZeroBitsOfByte4,
            StatusRule::SetScope,
            StatusRule::EncryptionMode,
            StatusRule::DecryptionMode,
            StatusRule::AlgorithmIndex,
            StatusRule::FixedZeroBitsOfByte12,
        ];
        every.extend((13..=23).map(StatusRule::FixedZeroByte));
        every.extend(DescriptorRule::EVERY.map(StatusRule::Descriptor));
        every
    }

    /// Whether the answer is 7 (01: "24 bytes at least and an exact length, else 7") and not 8.
    pub fn is_about_length(self) -> bool {
        matches!(self, StatusRule::TwentyFourBytesAtLeast | StatusRule::LengthIsByteCount)
    }
}

/// A page the reader refuses: answer 7 or 8, and every rule it breaks.
#[derive(Clone, PartialEq, Eq, Debug)]
pub struct Fault {
    pub answer: Refused,
    pub broken: Vec<Broken<StatusRule>>,
}

/// The status reader of 01: "It takes index 0 or 1 and any mixture of modes."
pub fn read(page: &[u8]) -> Result<Status, Fault> {
    let broken = broken_rules(page);
    if let Some(answer) = Refused::of_page(&broken) {
        return Err(Fault { answer, broken });
    }
    let Kads { u_kad, a_kad } = read_list(page, HEADER_BYTES).expect("the rules of the list hold");
    Ok(Status {
        nexus_scope: page[4] >> 5,
        set_scope: page[4] & 0x07,
        encryption: page[5],
        decryption: page[6],
        index: page[7],
        number: u32::from_be_bytes([page[8], page[9], page[10], page[11]]),
        ceems: (page[12] >> 1) & 3,
        rdmd: page[12] & 1 != 0,
        u_kad,
        a_kad,
    })
}

/// Every rule that the page breaks. While a length rule is broken no field is read.
pub fn broken_rules(page: &[u8]) -> Vec<Broken<StatusRule>> {
    let lengths = broken_lengths(page);
    if !lengths.is_empty() {
        return lengths;
    }
    let mut broken = broken_fields(page);
    // 01: "descriptors formed as above (under any mode)".
    let list = read_list(page, HEADER_BYTES).err().unwrap_or_default();
    let of_list = |(rule, byte)| Broken { rule: StatusRule::Descriptor(rule), byte: Some(byte) };
    broken.extend(list.into_iter().map(of_list));
    broken
}

/// 01: "The status reader asks for 24 bytes at least and an exact length, else 7".
fn broken_lengths(page: &[u8]) -> Vec<Broken<StatusRule>> {
    let mut broken = Vec::new();
    if page.len() < HEADER_BYTES {
        broken.push(Broken { rule: StatusRule::TwentyFourBytesAtLeast, byte: None });
    }
    if page.len() >= 4 && usize::from(u16::from_be_bytes([page[2], page[3]])) + 4 != page.len() {
        broken.push(Broken { rule: StatusRule::LengthIsByteCount, byte: None });
    }
    broken
}

/// 01: "then page code 0020h, fixed zeros zero, codes in range ..., else 8"; 02, request 6: "A whole field in fault points
/// to its first byte", "Each reserved byte is a field of its own."
fn broken_fields(page: &[u8]) -> Vec<Broken<StatusRule>> {
    let mut broken = Vec::new();
    let mut holds = |rule, byte, condition: bool| {
        if !condition {
            broken.push(Broken { rule, byte: Some(byte) });
        }
    };
    holds(StatusRule::PageCode, 0, page[..2] == page_code::STATUS.to_be_bytes());
    holds(StatusRule::NexusScope, 4, page[4] >> 5 <= scope::ALL);
    holds(StatusRule::FixedZeroBitsOfByte4, 4, page[4] & 0x18 == 0);
    holds(StatusRule::SetScope, 4, page[4] & 0x07 <= scope::ALL);
    holds(StatusRule::EncryptionMode, 5, page[5] <= encryption::ENCRYPT);
    holds(StatusRule::DecryptionMode, 6, page[6] <= decryption::MIXED);
    holds(StatusRule::AlgorithmIndex, 7, page[7] <= ALGORITHM);
    // Control bits 6–4 and VCELB are 0, and bit 7 has no name.
    holds(StatusRule::FixedZeroBitsOfByte12, 12, page[12] & 0xF8 == 0);
    for byte in 13..=23 {
        holds(StatusRule::FixedZeroByte(byte), usize::from(byte), page[usize::from(byte)] == 0);
    }
    broken
}
