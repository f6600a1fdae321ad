//! All 256 values of bytes 4 to 10 of the Set page; every mixture of modes, RDMC, key and list; key lengths.

use crate::codes::scope;
use crate::comparison::page_builder::{descriptor, Edit, Family, SetPage};
use crate::comparison::record_builder::mixed_without_pending;
use crate::comparison::session::{security_out, Sink, Stage};

pub fn sessions(sink: &mut Sink) {
    bytes_4_to_10(sink);
    modes(sink);
    supplemental_modes(sink);
    key_lengths(sink);
}

/// Every value of each byte in a page of each family, from a PUBLIC, a LOCAL and the ALL nexus.
fn bytes_4_to_10(sink: &mut Sink) {
    let mut stage = Stage::new("values of bytes 4 to 10", mixed_without_pending(), sink);
    for (number, family) in Family::EVERY.into_iter().enumerate() {
        for byte in 4..=10 {
            for value in 0..=255u8 {
                let mut page = family.page().bytes();
                page[byte] = value;
                let sender = match family {
                    Family::LocalSupplemental => 3,
                    Family::AllSupplemental => 9,
                    _ => [3, 9, 6][(number + usize::from(value)) % 3],
                };
                stage.call(security_out(sender, page));
            }
        }
    }
    stage.finish();
}

/// Every mixture of modes with each RDMC, with and without key and list.
fn modes(sink: &mut Sink) {
    let mut stage = Stage::new("modes, RDMC, key and list", mixed_without_pending(), sink);
    for encryption in 0..4 {
        for decryption in 0..5 {
            for rdmc in 0..4 {
                for key in [Vec::new(), vec![0x4B; 32]] {
                    for list in [Vec::new(), descriptor(0, 5, 5), vec![0]] {
                        for scope in [scope::LOCAL, scope::ALL] {
                            let (key, list) = (key.clone(), list.clone());
                            let page =
                                SetPage { scope, encryption, decryption, rdmc, key, list, ..SetPage::k() };
                            stage.call(security_out(6, page.bytes()));
                        }
                    }
                }
            }
        }
    }
    stage.finish();
}

/// Supplemental keys of each scope and mode for a set of each mode.
fn supplemental_modes(sink: &mut Sink) {
    for mode in 0..4 {
        let mut record = mixed_without_pending();
        record.places[0].decryption = mode;
        record.places[2].decryption = mode;
        let mut stage = Stage::new("modes of supplemental keys", record, sink);
        for nexus in [3, 9, 6, 15, 0] {
            for scope in [scope::LOCAL, scope::ALL] {
                for decryption in 0..5 {
                    for encryption in [0, 2, 3, 255] {
                        let page = SetPage { encryption, ..SetPage::supplemental(scope, decryption, 1) };
                        stage.call(security_out(nexus, page.bytes()));
                    }
                }
            }
        }
        stage.finish();
    }
}

/// Key lengths around 0 and 32, the page's bytes as they should be and as the length says.
fn key_lengths(sink: &mut Sink) {
    let mut stage = Stage::new("key lengths", mixed_without_pending(), sink);
    for family in Family::EVERY {
        let sender = if family == Family::AllSupplemental { 9 } else { 3 };
        for length in (0..=70).chain([0x0100, 0x0120, 0x2000, 0x7FFF, 0xFFEC, 0xFFFF]) {
            let mut page = family.page().bytes();
            Edit::KeyLength(length).apply(&mut page, 20);
            stage.call(security_out(sender, page));
            let key = vec![0x11; usize::from(length.min(300))];
            stage.call(security_out(sender, SetPage { key, ..family.page() }.bytes()));
        }
    }
    stage.finish();
}
