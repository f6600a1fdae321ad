//! Supplemental keys of every scope and mode for sets of every mode, and what of their pages isn't looked at.

use super::draft::record;
use crate::codes::{decryption, scope};
use crate::comparison::page_builder::SetPage;
use crate::comparison::session::{security_out, Sink, Stage};

pub fn sessions(sink: &mut Sink) {
    for mode in decryption::DISABLE..=decryption::MIXED {
        let mut record = record();
        for place in [0, 2, 4] {
            record.places[place].decryption = mode;
        }
        let mut stage = Stage::new("faulty bytes: supplemental keys", record, sink);
        for scope in [scope::LOCAL, scope::ALL] {
            for page_mode in [0, 1, 2, 3, 4, 255] {
                let page = SetPage::supplemental(scope, page_mode, 0x66);
                // LOCAL, ALL, PUBLIC, and LOCAL with four keys
                for nexus in [3, 9, 6, 15] {
                    for damaged in damaged(&page) {
                        stage.call(security_out(nexus, damaged));
                    }
                }
            }
        }
        stage.finish();
    }
}

/// The page as it is, with other fields wrong, and with fields that aren't looked at.
fn damaged(page: &SetPage) -> Vec<Vec<u8>> {
    let changes: [&[(usize, u8)]; 9] = [
        &[],
        &[(8, 2)],
        &[(17, 1)],
        &[(19, 31)],
        &[(0, 1)],
        &[(5, 0x18)],
        &[(5, 0x98)],
        &[(5, 0xFF), (6, 0xFF)],
        &[(5, 0xFF), (6, 3), (10, 1)],
    ];
    changes
        .iter()
        .map(|changes| {
            let mut page = page.bytes();
            changes.iter().for_each(|&(at, value)| page[at] = value);
            page
        })
        .collect()
}
