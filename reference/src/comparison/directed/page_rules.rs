//! The rules of the Set page broken one at a time and in pairs, at every page length from 0 to 120.

use crate::comparison::page_builder::{Edit, Family};
use crate::comparison::record_builder::mixed;
use crate::comparison::session::{security_out, Sink, Stage};

/// The longest page.
const LONGEST: usize = 120;

/// The sender for which a family's page is in order.
fn sender(family: Family) -> u8 {
    match family {
        Family::LocalSupplemental | Family::LocalEncrypt => 3,
        Family::AllSupplemental => 9,
        _ => 6,
    }
}

/// A family's page of a length, damaged by some edits.
fn page(family: Family, length: usize, edits: &[Edit]) -> Vec<u8> {
    let mut page = family.page_of(length);
    let list = family.page().bytes().len();
    for edit in edits {
        edit.apply(&mut page, list);
    }
    page
}

pub fn sessions(sink: &mut Sink) {
    let mut record = mixed();
    record.nexuses[9].changed_by_vendor_event = false;
    let edits = Edit::of_set_page();
    for length in 0..=LONGEST {
        let mut stage = Stage::new("one rule of the page", record.clone(), sink);
        for family in Family::EVERY {
            stage.call(security_out(sender(family), page(family, length, &[])));
            for &edit in &edits {
                stage.call(security_out(sender(family), page(family, length, &[edit])));
            }
        }
        stage.finish();
    }
    for length in 0..=LONGEST {
        let mut stage = Stage::new("two rules of the page", record.clone(), sink);
        for (at, &first) in edits.iter().enumerate() {
            for (other, &second) in edits.iter().enumerate().skip(at + 1) {
                let family = Family::EVERY[(at + other + length) % Family::EVERY.len()];
                stage.call(security_out(sender(family), page(family, length, &[first, second])));
            }
        }
        stage.finish();
    }
}
