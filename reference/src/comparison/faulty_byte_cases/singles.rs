//! What alone is wrong with a page, as far as one rule can be broken in several ways.

use super::rules::{PageKind, RuleOfPage};
use crate::codes::{decryption, encryption, page_code, scope};
use crate::descriptors::{DescriptorRule, A_KAD_TYPE, HEADER_BYTES, U_KAD_TYPE};
use crate::record::Record;
use crate::set_page::{self, PageRule};
use crate::sizes::{A_KAD_BYTES, KEY_BYTES, U_KAD_BYTES};
use crate::status_page::{self, StatusRule};
use crate::stream::Command;
use std::fmt;

/// Which bytes of a field of two are wrong.
#[derive(Clone, Copy, PartialEq, Eq, PartialOrd, Ord, Debug)]
pub enum WrongBytes {
    First,
    Second,
    Both,
}

impl WrongBytes {
    const EVERY: [WrongBytes; 3] = [WrongBytes::First, WrongBytes::Second, WrongBytes::Both];

    /// Those of a field that isn't as it is to be.
    fn of(field: &[u8], expected: u16) -> WrongBytes {
        let [high, low] = expected.to_be_bytes();
        match (field[0] == high, field[1] == low) {
            (false, true) => WrongBytes::First,
            (true, _) => WrongBytes::Second,
            (false, false) => WrongBytes::Both,
        }
    }
}

/// The forms of page that have reserved bits.
#[derive(Clone, Copy, PartialEq, Eq, PartialOrd, Ord, Debug)]
pub enum Form {
    Sdk0,
    Sdk1,
    Status,
}

impl Form {
    /// Its bytes with reserved bits, and which bits of them are.
    pub fn reserved_bits(self) -> Vec<(usize, u8)> {
        match self {
            Form::Sdk0 | Form::Sdk1 => {
                [(4, 0x1E)].into_iter().chain((11..=17).map(|byte| (byte, 0xFF))).collect()
            }
            Form::Status => {
                [(4, 0x18), (12, 0xF8)].into_iter().chain((13..=23).map(|byte| (byte, 0xFF))).collect()
            }
        }
    }
}

/// What stands before a list that must be empty.
#[derive(Clone, Copy, PartialEq, Eq, PartialOrd, Ord, Debug)]
pub enum EmptyListAfter {
    Key,
    NoKey,
    SupplementalKey,
}

impl EmptyListAfter {
    pub const EVERY: [EmptyListAfter; 3] =
        [EmptyListAfter::Key, EmptyListAfter::NoKey, EmptyListAfter::SupplementalKey];

    /// What stands there in a page of LOCAL or ALL, if its list must be empty.
    pub fn of(page: &[u8]) -> Option<EmptyListAfter> {
        if has_sdk(page) {
            return Some(EmptyListAfter::SupplementalKey);
        }
        let has_key = key_length_wanted(page) > 0;
        let after = if has_key { EmptyListAfter::Key } else { EmptyListAfter::NoKey };
        (page[6] != encryption::ENCRYPT).then_some(after)
    }
}

/// What alone is wrong with a descriptor.
#[derive(Clone, Copy, PartialEq, Eq, PartialOrd, Ord, Debug)]
pub enum DescriptorFault {
    UnknownType,
    /// Type 0 after type 1.
    TypeFalls,
    SameType(u8),
    SecondByte(u8),
    Length {
        kind: u8,
        length: usize,
    },
    /// So many bytes of it, which are no whole head.
    HeadCut {
        kind: u8,
        there: usize,
    },
    /// So many bytes of its data, which aren't all.
    DataCut {
        kind: u8,
        there: usize,
    },
}

/// The wrong lengths that are to be tried, by type: too small, too large, and wrong in the first length byte alone.
const WRONG_LENGTHS: [(u8, [usize; 5]); 2] = [
    (U_KAD_TYPE, [0, U_KAD_BYTES + 1, 0x0100, 0x0101, 0x0120]),
    (A_KAD_TYPE, [0, A_KAD_BYTES + 1, 0x0100, 0x0101, 0x010C]),
];

impl DescriptorFault {
    /// Every fault of the descriptor with this number in a list whose others are in order.
    fn every(position: usize) -> Vec<DescriptorFault> {
        let mut every = vec![DescriptorFault::UnknownType];
        if position > 0 {
            every.extend([DescriptorFault::TypeFalls, DescriptorFault::SameType(A_KAD_TYPE)]);
        }
        if position == 1 {
            every.push(DescriptorFault::SameType(U_KAD_TYPE));
        }
        let kinds = match position {
            0 => U_KAD_TYPE..=A_KAD_TYPE,
            1 => A_KAD_TYPE..=A_KAD_TYPE,
            // After a U-KAD and an A-KAD no type is right.
            _ => return every,
        };
        for kind in kinds {
            let (_, lengths) = WRONG_LENGTHS[usize::from(kind)];
            let most = if kind == U_KAD_TYPE { U_KAD_BYTES } else { A_KAD_BYTES };
            every.push(DescriptorFault::SecondByte(kind));
            every.extend(lengths.map(|length| DescriptorFault::Length { kind, length }));
            every.extend((1..HEADER_BYTES).map(|there| DescriptorFault::HeadCut { kind, there }));
            every.extend((0..most).map(|there| DescriptorFault::DataCut { kind, there }));
        }
        every
    }

    /// The fault of the descriptor at a byte that breaks this rule alone, after one of that type.
    fn of(rule: DescriptorRule, descriptor: &[u8], last_type: Option<u8>) -> DescriptorFault {
        let kind = descriptor[0];
        match rule {
            DescriptorRule::TypeUKadOrAKad => DescriptorFault::UnknownType,
            DescriptorRule::TypesRise if last_type == Some(kind) => DescriptorFault::SameType(kind),
            DescriptorRule::TypesRise => DescriptorFault::TypeFalls,
            DescriptorRule::ZeroByte => DescriptorFault::SecondByte(kind),
            DescriptorRule::UKadLength | DescriptorRule::AKadLength => {
                DescriptorFault::Length { kind, length: length_of(descriptor) }
            }
            DescriptorRule::HeaderInPage => DescriptorFault::HeadCut { kind, there: descriptor.len() },
            DescriptorRule::DataInPage => {
                DescriptorFault::DataCut { kind, there: descriptor.len() - HEADER_BYTES }
            }
        }
    }
}

/// What alone is wrong with a page.
#[derive(Clone, Copy, PartialEq, Eq, PartialOrd, Ord, Debug)]
pub enum Single {
    PageCode {
        page: PageKind,
        bytes: WrongBytes,
    },
    Scope(u8),
    ReservedBit {
        form: Form,
        byte: usize,
        bit: u32,
    },
    KeyLength {
        sdk: bool,
        wanted: u16,
        bytes: WrongBytes,
    },
    /// So many bytes of a key of 32.
    KeyCut {
        sdk: bool,
        there: usize,
    },
    LeftOver {
        after: EmptyListAfter,
        bytes: usize,
    },
    SupplementalScope {
        of_nexus: u8,
        of_page: u8,
    },
    SupplementalMode {
        of_set: u8,
        of_page: u8,
    },
    Descriptor {
        page: PageKind,
        position: usize,
        fault: DescriptorFault,
    },
}

impl Single {
    /// Everything that alone is to be wrong once.
    pub fn every() -> Vec<Single> {
        let mut every: Vec<Single> = (3..=7).map(Single::Scope).collect();
        for bytes in WrongBytes::EVERY {
            every.extend(PageKind::EVERY.map(|page| Single::PageCode { page, bytes }));
            let wanted = [(false, 32), (false, 0), (true, 32)];
            every.extend(wanted.map(|(sdk, wanted)| Single::KeyLength { sdk, wanted, bytes }));
        }
        for form in [Form::Sdk0, Form::Sdk1, Form::Status] {
            for (byte, mask) in form.reserved_bits() {
                let bits = (0..8).filter(|bit| mask >> bit & 1 == 1);
                every.extend(bits.map(|bit| Single::ReservedBit { form, byte, bit }));
            }
        }
        for sdk in [false, true] {
            every.extend((0..KEY_BYTES).map(|there| Single::KeyCut { sdk, there }));
        }
        for after in EmptyListAfter::EVERY {
            every.extend((1..=5).map(|bytes| Single::LeftOver { after, bytes }));
        }
        for (of_nexus, of_page) in [(0, 1), (0, 2), (1, 2), (2, 1)] {
            every.push(Single::SupplementalScope { of_nexus, of_page });
        }
        for (of_set, of_page) in (0..16).map(|pair| (pair / 4, pair % 4)) {
            if of_set != of_page || of_page < decryption::DECRYPT {
                every.push(Single::SupplementalMode { of_set, of_page });
            }
        }
        for page in PageKind::EVERY {
            for position in 0..3 {
                let faults = DescriptorFault::every(position);
                every.extend(faults.into_iter().map(|fault| Single::Descriptor { page, position, fault }));
            }
        }
        every
    }

    /// What alone is wrong with a call's page that breaks these rules, over the record before it.
    pub fn of(command: &Command, before: &Record, broken: &[(RuleOfPage, usize)]) -> Option<Single> {
        match *broken {
            [(RuleOfPage::Set(rule), byte)] => of_set_page(command, before, rule, byte),
            [(RuleOfPage::Status(rule), byte)] => of_status_page(&command.data, rule, byte),
            // A mode that is neither the set's nor 2 or 3 breaks two rules at one byte.
            [(RuleOfPage::Set(PageRule::SupplementalModeIsSetMode), byte), (RuleOfPage::Set(rule), other)]
                if byte == other =>
            {
                of_set_page(command, before, rule, byte)
            }
            _ => None,
        }
    }
}

/// What alone is wrong with a Set page.
fn of_set_page(command: &Command, before: &Record, rule: PageRule, byte: usize) -> Option<Single> {
    let page = &command.data;
    let (sdk, nexus) = (has_sdk(page), usize::from(command.nexus));
    let form = if sdk { Form::Sdk1 } else { Form::Sdk0 };
    match rule {
        PageRule::PageCode => {
            let bytes = WrongBytes::of(&page[..2], page_code::SET_DATA_ENCRYPTION);
            Some(Single::PageCode { page: PageKind::Set, bytes })
        }
        PageRule::Scope => Some(Single::Scope(page[4] >> 5)),
        PageRule::ReservedBitsOfByte4 | PageRule::ReservedByte(_) => reserved_bit(form, page, byte),
        PageRule::KeyLength | PageRule::SupplementalKeyLength => {
            let wanted = key_length_wanted(page);
            Some(Single::KeyLength { sdk, wanted, bytes: WrongBytes::of(&page[18..20], wanted) })
        }
        PageRule::KeyInPage | PageRule::SupplementalKeyInPage => {
            Some(Single::KeyCut { sdk, there: page.len() - set_page::HEADER_BYTES })
        }
        PageRule::NoListWithoutEncrypt | PageRule::NoListWithSupplementalKey => {
            EmptyListAfter::of(page).map(|after| Single::LeftOver { after, bytes: page.len() - byte })
        }
        PageRule::SupplementalScopeIsNexusScope => {
            Some(Single::SupplementalScope { of_nexus: before.nexuses[nexus].scope, of_page: page[4] >> 5 })
        }
        PageRule::SupplementalModeIsSetMode | PageRule::SupplementalModeReads => {
            Some(Single::SupplementalMode { of_set: before.selected_set(nexus).decryption, of_page: page[7] })
        }
        PageRule::Descriptor(rule) => {
            let list = set_page::HEADER_BYTES + KEY_BYTES;
            Some(of_descriptor(PageKind::Set, page, list, rule, byte))
        }
        _ => None,
    }
}

/// What alone is wrong with a status page.
fn of_status_page(page: &[u8], rule: StatusRule, byte: usize) -> Option<Single> {
    match rule {
        StatusRule::PageCode => {
            let bytes = WrongBytes::of(&page[..2], page_code::STATUS);
            Some(Single::PageCode { page: PageKind::Status, bytes })
        }
        StatusRule::FixedZeroBitsOfByte4
        | StatusRule::FixedZeroBitsOfByte12
        | StatusRule::FixedZeroByte(_) => reserved_bit(Form::Status, page, byte),
        StatusRule::Descriptor(rule) => {
            Some(of_descriptor(PageKind::Status, page, status_page::HEADER_BYTES, rule, byte))
        }
        _ => None,
    }
}

/// The only reserved bit of a byte that is set, if there is only one.
fn reserved_bit(form: Form, page: &[u8], byte: usize) -> Option<Single> {
    let (_, mask) = form.reserved_bits().into_iter().find(|&(reserved, _)| reserved == byte)?;
    let wrong = page[byte] & mask;
    (wrong.count_ones() == 1).then(|| Single::ReservedBit { form, byte, bit: wrong.trailing_zeros() })
}

/// What is wrong with the descriptor of which a byte is told: those before it are in order.
fn of_descriptor(kind: PageKind, page: &[u8], list: usize, rule: DescriptorRule, byte: usize) -> Single {
    let (mut at, mut position, mut last_type) = (list, 0, None);
    while at + HEADER_BYTES <= byte {
        last_type = Some(page[at]);
        at += HEADER_BYTES + length_of(&page[at..]);
        position += 1;
    }
    Single::Descriptor { page: kind, position, fault: DescriptorFault::of(rule, &page[at..], last_type) }
}

/// The two bytes of length of a descriptor with a whole head.
fn length_of(descriptor: &[u8]) -> usize {
    usize::from(u16::from_be_bytes([descriptor[2], descriptor[3]]))
}

/// SDK of a Set page.
pub fn has_sdk(page: &[u8]) -> bool {
    page[5] & 0x08 != 0
}

/// 01: "Key length is 32 where encryption is 2 or decryption is 2 or 3, otherwise 0"; with SDK 1 32.
fn key_length_wanted(page: &[u8]) -> u16 {
    let reads = matches!(page[7], decryption::DECRYPT | decryption::MIXED);
    if has_sdk(page) || page[6] == encryption::ENCRYPT || reads {
        KEY_BYTES as u16
    } else {
        0
    }
}

/// Whether a Set page is one of LOCAL or ALL, of which fields after the scope are read.
pub fn is_local_or_all(page: &[u8]) -> bool {
    matches!(page[4] >> 5, scope::LOCAL | scope::ALL)
}

impl fmt::Display for Single {
    fn fmt(&self, formatter: &mut fmt::Formatter) -> fmt::Result {
        match self {
            Single::Descriptor { page, position, fault } => {
                write!(formatter, "{page:?} page, descriptor {position}: {fault:?}")
            }
            _ => write!(formatter, "{self:?}"),
        }
    }
}
