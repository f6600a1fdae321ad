//! Set Data Encryption pages and status pages as the comparison sends them, and edits that damage them.

use super::numbers::Numbers;
use crate::codes::{ceem, decryption, encryption, scope, ALGORITHM};
use crate::sizes::KEY_BYTES;

/// The fields of a Set Data Encryption page in order; damage is done to its bytes.
#[derive(Clone, Debug)]
pub struct SetPage {
    pub scope: u8,
    pub lock: bool,
    pub ceem: u8,
    pub rdmc: u8,
    pub sdk: bool,
    pub ckod: bool,
    pub ckorp: bool,
    pub ckorl: bool,
    pub encryption: u8,
    pub decryption: u8,
    pub algorithm: u8,
    pub key: Vec<u8>,
    pub list: Vec<u8>,
}

impl SetPage {
    /// Page K of 01, "Proved examples": byte 4 21h, byte 5 44h, modes 2 and 2, no descriptors.
    pub fn k() -> Self {
        SetPage {
            scope: scope::LOCAL,
            lock: true,
            ceem: 1,
            rdmc: 0,
            sdk: false,
            ckod: true,
            ckorp: false,
            ckorl: false,
            encryption: encryption::ENCRYPT,
            decryption: decryption::DECRYPT,
            algorithm: ALGORITHM,
            key: (1..=KEY_BYTES as u8).collect(),
            list: Vec::new(),
        }
    }

    /// K without its lock.
    pub fn k_unlocked() -> Self {
        SetPage { lock: false, ..SetPage::k() }
    }

    /// K with scope ALL.
    pub fn all() -> Self {
        SetPage { scope: scope::ALL, ..SetPage::k_unlocked() }
    }

    /// A PUBLIC page of 20 bytes.
    pub fn public(lock: bool) -> Self {
        SetPage { scope: scope::PUBLIC, lock, key: Vec::new(), ..SetPage::k() }
    }

    /// K with this scope and these modes, and its key only where they ask for one.
    pub fn of_modes(scope: u8, encryption: u8, decryption: u8) -> Self {
        let has_key = encryption == encryption::ENCRYPT || decryption >= decryption::DECRYPT;
        let key = if has_key { SetPage::k().key } else { Vec::new() };
        SetPage { scope, encryption, decryption, key, ..SetPage::k() }
    }

    /// A set that every event it can meet releases.
    pub fn releasable(scope: u8, lock: bool) -> Self {
        let page = SetPage::of_modes(scope, encryption::ENCRYPT, decryption::DECRYPT);
        SetPage { lock, ckorp: true, ckorl: true, ..page }
    }

    /// The page of 02's request 2: "A certification lab sent CEEM 10b with decryption DISABLE". The rest is ours: ALL,
    /// encryption DISABLE too, so no key, and nothing else set (byte 5 80h).
    pub fn labs() -> Self {
        SetPage {
            lock: false,
            ceem: ceem::REPORTS_EXTERNAL,
            ckod: false,
            ..SetPage::of_modes(scope::ALL, encryption::DISABLE, decryption::DISABLE)
        }
    }

    /// A supplemental key for a set with this decryption mode.
    pub fn supplemental(scope: u8, decryption: u8, key_byte: u8) -> Self {
        SetPage { scope, sdk: true, decryption, key: vec![key_byte; KEY_BYTES], ..SetPage::k() }
    }

    /// The page's bytes.
    pub fn bytes(&self) -> Vec<u8> {
        let mut page = vec![0x00, 0x10, 0, 0];
        page.push(self.scope << 5 | u8::from(self.lock));
        let bits = [self.sdk, self.ckod, self.ckorp, self.ckorl];
        let low = bits.iter().fold(0, |low, &bit| low << 1 | u8::from(bit));
        page.push(self.ceem << 6 | self.rdmc << 4 | low);
        page.extend([self.encryption, self.decryption, self.algorithm, 0, 0]);
        page.extend([0; 7]);
        page.extend((self.key.len() as u16).to_be_bytes());
        page.extend(&self.key);
        page.extend(&self.list);
        set_length(&mut page);
        page
    }
}

/// Makes a page's length the count of bytes after byte 3.
pub fn set_length(page: &mut [u8]) {
    if page.len() >= 4 {
        let length = (page.len() - 4) as u16;
        page[2..4].copy_from_slice(&length.to_be_bytes());
    }
}

/// One descriptor with a type, a length in its header and some bytes of data.
pub fn descriptor(kind: u8, length: u16, data: usize) -> Vec<u8> {
    let mut bytes = vec![kind, 0];
    bytes.extend(length.to_be_bytes());
    bytes.extend((0..data).map(|at| 0x40 + at as u8 % 0x40));
    bytes
}

/// A list of so many bytes: in order where that is possible, otherwise with its last descriptor cut.
pub fn list_of(count: usize) -> Vec<u8> {
    let mut list = match count {
        0 => Vec::new(),
        1..=36 => descriptor(0, count.saturating_sub(4).max(1) as u16, 32),
        _ => [descriptor(0, 32, 32), descriptor(1, count.saturating_sub(40).max(1) as u16, count)].concat(),
    };
    list.truncate(count);
    list
}

/// The kinds of page that are cut and filled to every length.
#[derive(Clone, Copy, PartialEq, Eq, Debug)]
pub enum Family {
    Public,
    LocalEncrypt,
    AllEncrypt,
    LocalReadOnly,
    AllWriteOnly,
    LocalWithoutKey,
    LocalSupplemental,
    AllSupplemental,
}

impl Family {
    pub const EVERY: [Family; 8] = [
        Family::Public,
        Family::LocalEncrypt,
        Family::AllEncrypt,
        Family::LocalReadOnly,
        Family::AllWriteOnly,
        Family::LocalWithoutKey,
        Family::LocalSupplemental,
        Family::AllSupplemental,
    ];

    /// The family's page without descriptors.
    pub fn page(self) -> SetPage {
        match self {
            Family::Public => SetPage::public(true),
            Family::LocalEncrypt => SetPage::k(),
            Family::AllEncrypt => SetPage::all(),
            Family::LocalReadOnly => SetPage { encryption: encryption::DISABLE, ..SetPage::k_unlocked() },
            Family::AllWriteOnly => SetPage { decryption: decryption::DISABLE, ..SetPage::all() },
            Family::LocalWithoutKey => SetPage {
                encryption: encryption::EXTERNAL,
                decryption: decryption::RAW,
                key: Vec::new(),
                ..SetPage::k()
            },
            Family::LocalSupplemental => SetPage::supplemental(scope::LOCAL, decryption::DECRYPT, 0x77),
            Family::AllSupplemental => SetPage::supplemental(scope::ALL, decryption::MIXED, 0x99),
        }
    }

    /// The family's page cut or filled to a length, with that length in it.
    pub fn page_of(self, length: usize) -> Vec<u8> {
        let mut page = self.page().bytes();
        let left = length.saturating_sub(page.len());
        page.extend(list_of(left));
        page.truncate(length);
        set_length(&mut page);
        page
    }
}

/// A way to damage a page. An edit of a byte the page doesn't have does nothing.
#[derive(Clone, Copy, Debug)]
pub enum Edit {
    /// A byte of the page becomes this.
    Byte(usize, u8),
    /// These bits of a byte become that.
    Bits(usize, u8, u8),
    /// These bits of a byte turn.
    Turn(usize, u8),
    /// The page's length is off by this.
    PageLength(i32),
    /// The key's length.
    KeyLength(u16),
    /// A byte of the descriptor of this number becomes this.
    Descriptor(usize, usize, u8),
    /// The length of the descriptor of this number is off by this.
    DescriptorLength(usize, i32),
}

impl Edit {
    /// Every edit of a Set Data Encryption page that the directed sessions try alone and in pairs.
    pub fn of_set_page() -> Vec<Edit> {
        let mut edits = vec![
            Edit::PageLength(-1),
            Edit::PageLength(1),
            Edit::Byte(0, 0x01),
            Edit::Byte(1, 0x11),
            Edit::Bits(4, 0xE0, 0x60),
            Edit::Bits(4, 0xE0, 0xE0),
            Edit::Turn(4, 0x60),
            Edit::Bits(4, 0x02, 0x02),
            Edit::Bits(4, 0x10, 0x10),
            Edit::Bits(5, 0x30, 0x10),
            Edit::Bits(5, 0xC0, 0x80),
            Edit::Bits(5, 0xC0, 0xC0),
            Edit::Turn(5, 0x08),
            Edit::Byte(6, 3),
            Edit::Byte(6, 1),
            Edit::Byte(7, 4),
            Edit::Byte(7, 0),
            Edit::Byte(7, 3),
            Edit::Byte(8, 0),
            Edit::Byte(8, 2),
            Edit::Byte(9, 1),
            Edit::Byte(10, 0x80),
            Edit::KeyLength(0),
            Edit::KeyLength(31),
            Edit::KeyLength(33),
            Edit::KeyLength(0x0120),
            Edit::Descriptor(0, 0, 1),
            Edit::Descriptor(0, 0, 2),
            Edit::Descriptor(0, 1, 1),
            Edit::Descriptor(0, 3, 0),
            Edit::Descriptor(0, 3, 33),
            Edit::DescriptorLength(0, 1),
            Edit::DescriptorLength(0, -1),
            Edit::Descriptor(1, 0, 0),
            Edit::Descriptor(1, 0, 2),
            Edit::Descriptor(1, 1, 0x80),
            Edit::Descriptor(1, 2, 1),
            Edit::Descriptor(1, 3, 0),
            Edit::Descriptor(1, 3, 13),
        ];
        edits.extend((11..=17).map(|byte| Edit::Byte(byte, 1 << (byte - 11))));
        edits
    }

    /// Every edit of a status page that the directed sessions try alone and in pairs.
    pub fn of_status_page() -> Vec<Edit> {
        let mut edits = vec![
            Edit::PageLength(-1),
            Edit::PageLength(1),
            Edit::Byte(0, 0x20),
            Edit::Byte(1, 0x10),
            Edit::Bits(4, 0xE0, 0x60),
            Edit::Bits(4, 0x07, 0x03),
            Edit::Bits(4, 0x08, 0x08),
            Edit::Bits(4, 0x10, 0x10),
            Edit::Byte(5, 3),
            Edit::Byte(6, 4),
            Edit::Byte(7, 2),
            Edit::Bits(12, 0x08, 0x08),
            Edit::Bits(12, 0x10, 0x10),
            Edit::Bits(12, 0x80, 0x80),
            Edit::Descriptor(0, 0, 1),
            Edit::Descriptor(0, 0, 2),
            Edit::Descriptor(0, 1, 1),
            Edit::Descriptor(0, 3, 0),
            Edit::Descriptor(0, 3, 33),
            Edit::DescriptorLength(0, 1),
            Edit::DescriptorLength(0, -1),
            Edit::Descriptor(1, 0, 0),
            Edit::Descriptor(1, 0, 2),
            Edit::Descriptor(1, 1, 0x80),
            Edit::Descriptor(1, 2, 1),
            Edit::Descriptor(1, 3, 0),
            Edit::Descriptor(1, 3, 13),
        ];
        edits.extend((13..=23).map(|byte| Edit::Byte(byte, 1 << (byte % 8))));
        edits
    }

    /// Does the edit to a page whose descriptors start at byte `list`.
    pub fn apply(self, page: &mut [u8], list: usize) {
        match self {
            Edit::Byte(at, value) => change(page, Some(at), |_| value),
            Edit::Bits(at, bits, value) => change(page, Some(at), |byte| byte & !bits | value),
            Edit::Turn(at, bits) => change(page, Some(at), |byte| byte ^ bits),
            Edit::PageLength(off) => add(page, Some(2), off),
            Edit::KeyLength(length) => {
                let [high, low] = length.to_be_bytes();
                change(page, Some(18), |_| high);
                change(page, Some(19), |_| low);
            }
            Edit::Descriptor(number, at, value) => {
                let start = descriptor_start(page, list, number);
                change(page, start.map(|start| start + at), |_| value);
            }
            Edit::DescriptorLength(number, off) => {
                let start = descriptor_start(page, list, number);
                add(page, start.map(|start| start + 2), off);
            }
        }
    }
}

/// Changes a byte the page has.
fn change(page: &mut [u8], at: Option<usize>, new: impl Fn(u8) -> u8) {
    if let Some(byte) = at.and_then(|at| page.get_mut(at)) {
        *byte = new(*byte);
    }
}

/// Adds to a number of two bytes the page has.
fn add(page: &mut [u8], at: Option<usize>, off: i32) {
    let Some(at) = at.filter(|at| at + 2 <= page.len()) else { return };
    let number = i32::from(u16::from_be_bytes([page[at], page[at + 1]]));
    page[at..at + 2].copy_from_slice(&((number + off) as u16).to_be_bytes());
}

/// The byte at which a descriptor starts.
fn descriptor_start(page: &[u8], list: usize, number: usize) -> Option<usize> {
    let mut start = list;
    for _ in 0..number {
        let length = page.get(start + 2..start + 4)?;
        start += 4 + usize::from(u16::from_be_bytes([length[0], length[1]]));
    }
    Some(start)
}

/// A status page's first 24 bytes, in order and with every field away from zero.
pub fn status_header() -> Vec<u8> {
    let mut page = vec![0x00, 0x20, 0, 0, 0x21, 2, 3, 1, 0x12, 0x34, 0x56, 0x78, 0x05];
    page.resize(24, 0);
    page
}

/// A status page cut or filled to a length, with that length in it.
pub fn status_page_of(length: usize) -> Vec<u8> {
    let mut page = status_header();
    page.extend(list_of(length.saturating_sub(24)));
    page.truncate(length);
    set_length(&mut page);
    page
}

/// A list of descriptors, mostly in order.
pub fn random_list(numbers: &mut Numbers) -> Vec<u8> {
    let (wrong_length, falling) = (numbers.percent(3), numbers.percent(3));
    let (mut u_kad, mut a_kad) = (Vec::new(), Vec::new());
    if numbers.percent(60) {
        let length =
            if wrong_length { numbers.pick(&[0, 33]) } else { numbers.pick(&[1, 5, 16, 31, 32, 32]) };
        u_kad = [vec![0, 0, 0, length as u8], numbers.bytes(length)].concat();
    }
    if numbers.percent(50) {
        let length = if wrong_length { numbers.pick(&[0, 13]) } else { numbers.pick(&[1, 2, 5, 11, 12, 12]) };
        a_kad = [vec![1, 0, 0, length as u8], numbers.bytes(length)].concat();
    }
    if falling {
        [a_kad, u_kad].concat()
    } else {
        [u_kad, a_kad].concat()
    }
}

/// Damages a page in some way.
pub fn random_damage(page: &mut Vec<u8>, edits: &[Edit], list: usize, numbers: &mut Numbers) {
    match numbers.below(6) {
        0..=2 => numbers.pick(edits).apply(page, list),
        3 => {
            if !page.is_empty() {
                let limit = page.len().min(list + 8);
                let at = numbers.below(limit);
                page[at] = numbers.byte();
            }
        }
        4 => {
            let more = numbers.pick(&[1, 8, 60]);
            let length = numbers.below(page.len() + more);
            page.resize(length, 0);
            set_length(page);
        }
        _ => {
            let length = numbers.below(page.len() + 4);
            page.resize(length, 0);
        }
    }
}
