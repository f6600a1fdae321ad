//! Events of sessions of writes, over a few pages.

use crate::given::{k, k_but, without_key};
use crate::recording::{event, out};
use reference::recording::Event;

/// A write with the volume's support, and one without.
pub fn supported(nexus: u8) -> Event {
    event(3, nexus, 1)
}

pub fn not_supported(nexus: u8) -> Event {
    event(3, nexus, 0)
}

/// The pages that are sent, in their order among the page bytes.
pub enum Page {
    /// LOCAL, ENCRYPT, locked.
    K,
    UnlockedK,
    AllK,
    External,
    AllExternal,
    Public,
    LockedPublic,
    LockedAllK,
    /// LOCAL, locked, with every CK bit.
    ReleasableK,
    AllReleasableK,
    /// A supplemental key, LOCAL and ALL.
    Key,
    AllKey,
    /// With the bit SDK, which a PUBLIC page ignores.
    LockedPublicWithSdk,
    /// SCOPE 3.
    Wrong,
}

pub fn pages() -> [Vec<u8>; 14] {
    [
        k(),
        k_but(&[(4, 0x20)]),
        k_but(&[(4, 0x40)]),
        without_key([0x20, 0, 1, 0]),
        without_key([0x40, 0, 1, 0]),
        without_key([0x00, 0, 0, 0]),
        without_key([0x01, 0, 0, 0]),
        k_but(&[(4, 0x41)]),
        k_but(&[(5, 0x47)]),
        k_but(&[(4, 0x40), (5, 0x47)]),
        k_but(&[(5, 0x08)]),
        k_but(&[(4, 0x41), (5, 0x08)]),
        without_key([0x01, 0x08, 0, 0]),
        k_but(&[(4, 0x61)]),
    ]
}

/// A nexus sends a page.
pub fn sent(nexus: u8, page: Page) -> Event {
    let (pages, page) = (pages(), page as usize);
    out(nexus, pages[..page].concat().len() as u16, pages[page].len() as u16)
}
