//! Pages that break some rules that go together, and no others.

use crate::codes::{decryption, encryption, scope};
use crate::comparison::faulty_byte_cases::RuleOfPage;
use crate::comparison::page_builder::{descriptor, set_length, status_header, SetPage};
use crate::comparison::record_builder::mixed_without_pending;
use crate::comparison::session::{read_status, security_out};
use crate::descriptors::{DescriptorRule, A_KAD_TYPE, U_KAD_TYPE};
use crate::record::Record;
use crate::set_page::{PageRule, HEADER_BYTES};
use crate::status_page::StatusRule;
use crate::stream::Command;

/// The record over which the pages break those rules and no others: the set of nexus 3 is LOCAL with DECRYPT, that of
/// nexus 0 LOCAL with RAW, that of nexus 9 ALL with MIXED.
pub fn record() -> Record {
    mixed_without_pending()
}

/// What a page that breaks some rules is made of.
#[derive(Clone, Copy, Debug)]
pub struct Make {
    pub scope: u8,
    pub sdk: bool,
    /// Whether its faulty descriptor comes after a U-KAD; not with the length of a U-KAD.
    pub after_u_kad: bool,
}

/// A call whose page breaks these rules of one page. With a mode that reads nothing the scope is LOCAL.
pub fn breaking(rules: &[RuleOfPage], make: Make) -> Command {
    let of_set_page = rules.iter().filter_map(|rule| match rule {
        RuleOfPage::Set(rule) => Some(*rule),
        RuleOfPage::Status(_) => None,
    });
    let of_status_page = rules.iter().filter_map(|rule| match rule {
        RuleOfPage::Set(_) => None,
        RuleOfPage::Status(rule) => Some(*rule),
    });
    let (of_set_page, of_status_page): (Vec<_>, Vec<_>) = (of_set_page.collect(), of_status_page.collect());
    if of_status_page.is_empty() {
        Draft::breaking(&of_set_page, make).call()
    } else {
        read_status(status_page_breaking(&of_status_page, make))
    }
}

/// A Set page in parts.
struct Draft {
    nexus: u8,
    header: Vec<u8>,
    key: Vec<u8>,
    list: Vec<u8>,
}

impl Draft {
    /// The page that breaks these rules: first those that the modes decide, since these say whether a key is asked for.
    fn breaking(rules: &[PageRule], make: Make) -> Draft {
        let (nexus, mode) =
            if make.scope == scope::ALL { (9, decryption::MIXED) } else { (3, decryption::DECRYPT) };
        let page = SetPage { sdk: make.sdk, ..SetPage::of_modes(make.scope, encryption::ENCRYPT, mode) };
        let header = page.bytes()[..HEADER_BYTES].to_vec();
        let mut draft = Draft { nexus, header, key: page.key, list: Vec::new() };
        rules.iter().for_each(|&rule| draft.break_in_header(rule));
        let reads = matches!(draft.header[7], decryption::DECRYPT | decryption::MIXED);
        if !make.sdk && !reads && draft.header[6] != encryption::ENCRYPT {
            draft.key.clear();
            draft.header[19] = 0;
        }
        rules.iter().for_each(|&rule| draft.break_after_header(rule));
        let of_list = rules.iter().filter_map(|rule| match rule {
            PageRule::Descriptor(rule) => Some(*rule),
            _ => None,
        });
        draft.list.extend(list_breaking(&of_list.collect::<Vec<_>>(), make));
        draft
    }

    /// Breaks a rule by a field before the key's length.
    fn break_in_header(&mut self, rule: PageRule) {
        let header = &mut self.header;
        match rule {
            PageRule::PageCode => header[1] = 0x11,
            PageRule::Scope => header[4] |= 0x60,
            PageRule::ReservedBitsOfByte4 => header[4] |= 0x02,
            PageRule::RdmcUnderEncrypt => header[5] |= 0x10,
            PageRule::CeemWithDecryptionDisable => {
                header[5] |= 0x80;
                header[7] = decryption::DISABLE;
            }
            PageRule::EncryptionMode => header[6] = 3,
            PageRule::DecryptionMode => header[7] = 4,
            PageRule::AlgorithmIndex => header[8] = 2,
            PageRule::KeyFormat => header[9] = 1,
            PageRule::KadFormat => header[10] = 1,
            PageRule::ReservedByte(byte) => header[usize::from(byte)] = 1,
            PageRule::NoListWithoutEncrypt if header[6] == encryption::ENCRYPT => {
                header[6] = encryption::DISABLE;
            }
            PageRule::SupplementalScopeIsNexusScope => header[4] ^= 0x60,
            // from DECRYPT to MIXED or back
            PageRule::SupplementalModeIsSetMode => header[7] ^= 1,
            PageRule::SupplementalModeReads => {
                let is_set_mode = header[7] == decryption::DECRYPT;
                header[7] = if is_set_mode { decryption::RAW } else { decryption::DISABLE };
                self.nexus = 0;
            }
            _ => {}
        }
    }

    /// Breaks a rule by the key, its length, or bytes after it.
    fn break_after_header(&mut self, rule: PageRule) {
        match rule {
            PageRule::KeyLength | PageRule::SupplementalKeyLength => {
                self.key.push(0);
                self.header[19] += 1;
            }
            PageRule::KeyInPage | PageRule::SupplementalKeyInPage => {
                self.key.pop();
            }
            PageRule::NoListWithoutEncrypt | PageRule::NoListWithSupplementalKey => self.list.push(0),
            _ => {}
        }
    }

    fn call(self) -> Command {
        let mut page = [self.header, self.key, self.list].concat();
        set_length(&mut page);
        security_out(self.nexus, page)
    }
}

/// A status page that breaks these rules.
fn status_page_breaking(rules: &[StatusRule], make: Make) -> Vec<u8> {
    let mut page = status_header();
    let mut of_list = Vec::new();
    for rule in rules {
        match *rule {
            StatusRule::PageCode => page[1] = 0x21,
            StatusRule::NexusScope => page[4] |= 0x60,
            StatusRule::FixedZeroBitsOfByte4 => page[4] |= 0x08,
            StatusRule::SetScope => page[4] |= 0x03,
            StatusRule::EncryptionMode => page[5] = 3,
            StatusRule::DecryptionMode => page[6] = 4,
            StatusRule::AlgorithmIndex => page[7] = 2,
            StatusRule::FixedZeroBitsOfByte12 => page[12] |= 0x08,
            StatusRule::FixedZeroByte(byte) => page[usize::from(byte)] = 1,
            StatusRule::Descriptor(rule) => of_list.push(rule),
            StatusRule::TwentyFourBytesAtLeast | StatusRule::LengthIsByteCount => {}
        }
    }
    page.extend(list_breaking(&of_list, make));
    set_length(&mut page);
    page
}

/// A list with a descriptor that breaks these rules; the empty list for none.
fn list_breaking(rules: &[DescriptorRule], make: Make) -> Vec<u8> {
    let breaks = |rule| rules.contains(&rule);
    if rules.is_empty() {
        return Vec::new();
    }
    let (kind, length) = if breaks(DescriptorRule::TypeUKadOrAKad) {
        (2, 1)
    } else if breaks(DescriptorRule::AKadLength) {
        (A_KAD_TYPE, 13)
    } else if breaks(DescriptorRule::UKadLength) {
        (U_KAD_TYPE, 33)
    } else {
        (if make.after_u_kad { A_KAD_TYPE } else { U_KAD_TYPE }, 1)
    };
    let mut last = descriptor(kind, length, usize::from(length));
    if breaks(DescriptorRule::ZeroByte) {
        last[1] = 0x80;
    }
    if breaks(DescriptorRule::DataInPage) {
        last.pop();
    }
    if breaks(DescriptorRule::HeaderInPage) {
        last.truncate(2);
    }
    let u_kad = if make.after_u_kad { descriptor(U_KAD_TYPE, 2, 2) } else { Vec::new() };
    let a_kad = if breaks(DescriptorRule::TypesRise) { descriptor(A_KAD_TYPE, 1, 1) } else { Vec::new() };
    [u_kad, a_kad, last].concat()
}
