//! The rules of 01 and 02 that a Set Data Encryption page can break.

use super::{Sender, HEADER_BYTES};
use crate::answer::Broken;
use crate::codes::{ceem, decryption, encryption, page_code, scope, ALGORITHM};
use crate::descriptors::{read_list, DescriptorRule};
use crate::sizes::KEY_BYTES;

/// One rule of the page.
#[derive(Clone, Copy, PartialEq, Eq, PartialOrd, Ord, Debug)]
pub enum PageRule {
    TwentyBytesAtLeast,
    LengthIsByteCount,
    PageCode,
    Scope,
    ReservedBitsOfByte4,
    RdmcUnderEncrypt,
    CeemWithDecryptionDisable,
    EncryptionMode,
    DecryptionMode,
    AlgorithmIndex,
    KeyFormat,
    KadFormat,
    ReservedByte(u8),
    KeyLength,
    KeyInPage,
    NoListWithoutEncrypt,
    Descriptor(DescriptorRule),
    SupplementalScopeIsNexusScope,
    SupplementalModeIsSetMode,
    SupplementalModeReads,
    SupplementalKeyLength,
    SupplementalKeyInPage,
    NoListWithSupplementalKey,
}

impl PageRule {
    /// Every rule.
    pub fn every() -> Vec<PageRule> {
        let mut every = vec![
            PageRule::TwentyBytesAtLeast,
            PageRule::LengthIsByteCount,
            PageRule::PageCode,
            PageRule::Scope,
            PageRule::ReservedBitsOfByte4,
            PageRule::RdmcUnderEncrypt,
            PageRule::CeemWithDecryptionDisable,
            PageRule::EncryptionMode,
            PageRule::DecryptionMode,
            PageRule::AlgorithmIndex,
            PageRule::KeyFormat,
            PageRule::KadFormat,
            PageRule::KeyLength,
            PageRule::KeyInPage,
            PageRule::NoListWithoutEncrypt,
            PageRule::SupplementalScopeIsNexusScope,
            PageRule::SupplementalModeIsSetMode,
            PageRule::SupplementalModeReads,
            PageRule::SupplementalKeyLength,
            PageRule::SupplementalKeyInPage,
            PageRule::NoListWithSupplementalKey,
        ];
        every.extend((11..=17).map(PageRule::ReservedByte));
        every.extend(DescriptorRule::EVERY.map(PageRule::Descriptor));
        every
    }

    /// Whether the answer is 7 (01: "Answer 7: fewer than 20 bytes, or ...") and not 8.
    pub fn is_about_length(self) -> bool {
        matches!(self, PageRule::TwentyBytesAtLeast | PageRule::LengthIsByteCount)
    }
}

/// The rules found broken so far.
struct Found {
    broken: Vec<Broken<PageRule>>,
}

impl Found {
    /// Holds a rule against a byte of the page; 02, request 6: "A whole field in fault points to its first byte".
    fn holds(&mut self, rule: PageRule, byte: usize, condition: bool) {
        if !condition {
            self.broken.push(Broken { rule, byte: Some(byte) });
        }
    }
}

/// Every rule of 01 and 02 that the page breaks. While a length rule is broken no field is read.
pub fn broken_rules(page: &[u8], sender: Sender) -> Vec<Broken<PageRule>> {
    let lengths = broken_lengths(page);
    if !lengths.is_empty() {
        return lengths;
    }
    let mut found = Found { broken: Vec::new() };
    found.holds(PageRule::PageCode, 0, number_at(page, 0) == usize::from(page_code::SET_DATA_ENCRYPTION));
    // 01: "With PUBLIC ... every other field, SDK included, is ignored".
    match (page[4] >> 5, page[5] & 0x08 != 0) {
        (scope::PUBLIC, _) => {}
        (scope::LOCAL | scope::ALL, false) => parameters(page, &mut found),
        (scope::LOCAL | scope::ALL, true) => supplemental_key(page, sender, &mut found),
        _ => found.holds(PageRule::Scope, 4, false),
    }
    found.broken
}

/// 01: "Answer 7: fewer than 20 bytes, or page length plus 4 isn't the byte count."
fn broken_lengths(page: &[u8]) -> Vec<Broken<PageRule>> {
    let mut broken = Vec::new();
    if page.len() < HEADER_BYTES {
        broken.push(Broken { rule: PageRule::TwentyBytesAtLeast, byte: None });
    }
    if page.len() >= 4 && number_at(page, 2) + 4 != page.len() {
        broken.push(Broken { rule: PageRule::LengthIsByteCount, byte: None });
    }
    broken
}

/// 01: "With LOCAL or ALL and SDK 0: ...".
fn parameters(page: &[u8], found: &mut Found) {
    common_fields(page, found);
    let encrypts = page[6] == encryption::ENCRYPT;
    found.holds(PageRule::RdmcUnderEncrypt, 5, !(encrypts && (page[5] >> 4) & 3 == 1));
    // 02, request 2: "CEEM 10b or 11b with decryption mode DISABLE is an invalid field. Amend 01: for LOCAL and ALL
    // with SDK 0 that is answer 8. Our algorithm has EAREM set."; request 6: "request 2's CEEM to 5".
    let ceem_checks = matches!(page[5] >> 6, ceem::REPORTS_EXTERNAL | ceem::REPORTS_ENCRYPT);
    found.holds(PageRule::CeemWithDecryptionDisable, 5, !(ceem_checks && page[7] == decryption::DISABLE));
    found.holds(PageRule::EncryptionMode, 6, page[6] <= encryption::ENCRYPT);
    found.holds(PageRule::DecryptionMode, 7, page[7] <= decryption::MIXED);
    // 01: "Key length is 32 where encryption is 2 or decryption is 2 or 3, otherwise 0 (house)."
    let key_wanted = if encrypts || reads(page[7]) { KEY_BYTES } else { 0 };
    let key_length = number_at(page, 18);
    found.holds(PageRule::KeyLength, 18, key_length == key_wanted);
    let list = HEADER_BYTES + key_length;
    // 02, request 6: "a key cut by the page's end to 18".
    found.holds(PageRule::KeyInPage, 18, list <= page.len());
    if list > page.len() {
        return;
    }
    if !encrypts {
        // 01: "Without ENCRYPT the list is empty."; 02, request 6: "bytes left over where the list must be empty to the
        // first of them".
        found.holds(PageRule::NoListWithoutEncrypt, list, list == page.len());
    } else if let Err(broken) = read_list(page, list) {
        for (rule, byte) in broken {
            found.holds(PageRule::Descriptor(rule), byte, false);
        }
    }
}

/// 01: "With SDK 1 (LOCAL or ALL): ..."; 02, request 6: "A mismatched supplemental scope points to 4 and mode to 7".
fn supplemental_key(page: &[u8], sender: Sender, found: &mut Found) {
    common_fields(page, found);
    let scope_matches = page[4] >> 5 == sender.scope;
    found.holds(PageRule::SupplementalScopeIsNexusScope, 4, scope_matches);
    // "that set's mode": there is such a set only when the scopes are equal.
    found.holds(PageRule::SupplementalModeIsSetMode, 7, !scope_matches || page[7] == sender.set.decryption);
    found.holds(PageRule::SupplementalModeReads, 7, reads(page[7]));
    let key_length = number_at(page, 18);
    found.holds(PageRule::SupplementalKeyLength, 18, key_length == KEY_BYTES);
    let list = HEADER_BYTES + key_length;
    found.holds(PageRule::SupplementalKeyInPage, 18, list <= page.len());
    found.holds(PageRule::NoListWithSupplementalKey, list, list >= page.len());
}

/// 01: "bits 4–1 of byte 4 and bytes 11–17 zero; ... algorithm 1; both formats 0", with either SDK; 02, request 6: "Each
/// reserved byte is a field of its own."
fn common_fields(page: &[u8], found: &mut Found) {
    found.holds(PageRule::ReservedBitsOfByte4, 4, page[4] & 0x1E == 0);
    found.holds(PageRule::AlgorithmIndex, 8, page[8] == ALGORITHM);
    found.holds(PageRule::KeyFormat, 9, page[9] == 0);
    found.holds(PageRule::KadFormat, 10, page[10] == 0);
    for byte in 11..=17 {
        found.holds(PageRule::ReservedByte(byte), usize::from(byte), page[usize::from(byte)] == 0);
    }
}

/// 01: "decryption is 2 or 3".
fn reads(mode: u8) -> bool {
    mode == decryption::DECRYPT || mode == decryption::MIXED
}

/// 01: "Numbers are big-endian."
pub(super) fn number_at(page: &[u8], at: usize) -> usize {
    usize::from(u16::from_be_bytes([page[at], page[at + 1]]))
}
