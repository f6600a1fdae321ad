//! The key-associated data descriptors of 01: "type, a zero byte, two bytes of length, data".

use crate::record::Kad;
use crate::sizes::{A_KAD_BYTES, U_KAD_BYTES};

/// 01: "Type 0 U-KAD".
pub const U_KAD_TYPE: u8 = 0;
/// 01: "type 1 A-KAD".
pub const A_KAD_TYPE: u8 = 1;
/// Type, zero byte and length.
pub const HEADER_BYTES: usize = 4;

/// What can be wrong with a list of descriptors.
#[derive(Clone, Copy, PartialEq, Eq, PartialOrd, Ord, Debug)]
pub enum DescriptorRule {
    TypeUKadOrAKad,
    TypesRise,
    ZeroByte,
    UKadLength,
    AKadLength,
    HeaderInPage,
    DataInPage,
}

impl DescriptorRule {
    pub const EVERY: [DescriptorRule; 7] = [
        DescriptorRule::TypeUKadOrAKad,
        DescriptorRule::TypesRise,
        DescriptorRule::ZeroByte,
        DescriptorRule::UKadLength,
        DescriptorRule::AKadLength,
        DescriptorRule::HeaderInPage,
        DescriptorRule::DataInPage,
    ];
}

/// The data of a list in order.
#[derive(Clone, PartialEq, Eq, Debug)]
pub struct Kads {
    pub u_kad: Kad<U_KAD_BYTES>,
    pub a_kad: Kad<A_KAD_BYTES>,
}

/// Reads the list from `start` to the page's end; 01: "the last ends with the page". A list that isn't in order gives
/// the rules its first faulty descriptor breaks, each with the number of its byte: where a later one would start isn't
/// known then, and its bytes would have higher numbers anyway.
pub fn read_list(page: &[u8], start: usize) -> Result<Kads, Vec<(DescriptorRule, usize)>> {
    let mut kads = Kads { u_kad: Kad::NONE, a_kad: Kad::NONE };
    let mut last_type = None;
    let mut at = start;
    while at < page.len() {
        let broken = broken_rules(page, at, last_type);
        if !broken.is_empty() {
            return Err(broken);
        }
        let data = &page[at + HEADER_BYTES..at + HEADER_BYTES + length_at(page, at)];
        match page[at] {
            U_KAD_TYPE => kads.u_kad = Kad::of(data),
            _ => kads.a_kad = Kad::of(data),
        }
        last_type = Some(page[at]);
        at += HEADER_BYTES + data.len();
    }
    Ok(kads)
}

/// 01, the paragraph "Descriptors", for the one whose type is at byte `at`; 02, request 6: "a descriptor length to its
/// first length byte, a descriptor cut short by the page's end to its type byte".
fn broken_rules(page: &[u8], at: usize, last_type: Option<u8>) -> Vec<(DescriptorRule, usize)> {
    let mut broken = Vec::new();
    let left = page.len() - at;
    if page[at] > A_KAD_TYPE {
        broken.push((DescriptorRule::TypeUKadOrAKad, at));
    } else if last_type.is_some_and(|last| page[at] <= last) {
        broken.push((DescriptorRule::TypesRise, at));
    }
    if left > 1 && page[at + 1] != 0 {
        broken.push((DescriptorRule::ZeroByte, at + 1));
    }
    if left < HEADER_BYTES {
        broken.push((DescriptorRule::HeaderInPage, at));
        return broken;
    }
    let length = length_at(page, at);
    if page[at] == U_KAD_TYPE && !(1..=U_KAD_BYTES).contains(&length) {
        broken.push((DescriptorRule::UKadLength, at + 2));
    }
    if page[at] == A_KAD_TYPE && !(1..=A_KAD_BYTES).contains(&length) {
        broken.push((DescriptorRule::AKadLength, at + 2));
    }
    if HEADER_BYTES + length > left {
        broken.push((DescriptorRule::DataInPage, at));
    }
    broken
}

/// The two bytes of length of the descriptor whose type is at byte `at`.
fn length_at(page: &[u8], at: usize) -> usize {
    usize::from(u16::from_be_bytes([page[at + 2], page[at + 3]]))
}

/// Writes the list; 01, 0020h: "then KAD descriptors as in the Set page". Data of no bytes has no descriptor.
pub fn write_list(u_kad: &Kad<U_KAD_BYTES>, a_kad: &Kad<A_KAD_BYTES>, page: &mut Vec<u8>) {
    write_descriptor(U_KAD_TYPE, u_kad.data(), page);
    write_descriptor(A_KAD_TYPE, a_kad.data(), page);
}

/// One descriptor: type, a zero byte, two bytes of length, data.
fn write_descriptor(kind: u8, data: &[u8], page: &mut Vec<u8>) {
    if !data.is_empty() {
        page.extend([kind, 0, 0, data.len() as u8]);
        page.extend(data);
    }
}
