//! Pages with a wrong field that are answered before 8, of which no byte is told; and 8 before 9 and 10.

use super::draft::record;
use crate::codes::{decryption, scope};
use crate::comparison::page_builder::{status_page_of, SetPage};
use crate::comparison::record_builder::full;
use crate::comparison::session::{power_on, read_status, security_out, Session, Sink, Stage};
use crate::stream::Command;

pub fn sessions(sink: &mut Sink) {
    before_8(sink);
    after_8(sink);
    lengths_of_status_pages(sink);
}

/// K with a wrong code, and in order.
fn pages() -> [Vec<u8>; 2] {
    let mut page = SetPage::k().bytes();
    page[0] = 1;
    [page, SetPage::k().bytes()]
}

/// 1 to 7 with a page whose code is wrong, and with one in order.
fn before_8(sink: &mut Sink) {
    let mut pending = record();
    pending.nexuses[3].changed_by_another_nexus = true;
    pending.nexuses[6].changed_by_vendor_event = true;
    let mut not_well_formed = record();
    not_well_formed.nexuses[6].scope = scope::LOCAL;
    not_well_formed.put_words_right();
    for record in [pending, not_well_formed, record()] {
        let mut stage = Stage::new("faulty bytes: answers before 8", record, sink);
        for page in pages() {
            for nexus in [16, 3, 6, 3, 6] {
                stage.call(security_out(nexus, page.clone()));
                stage.call(Command { protocol: 0x21, ..security_out(nexus, page.clone()) });
                stage.call(Command { argument: 0x0011, ..security_out(nexus, page.clone()) });
                stage.call(security_out(nexus, page[..19].to_vec()));
                stage.call(security_out(nexus, [&page[..], &[0]].concat()));
                stage.call(security_out(nexus, Vec::new()));
            }
        }
        stage.finish();
    }
}

/// A fifth supplemental key and a LOCAL set without a place, with a wrong field and without.
fn after_8(sink: &mut Sink) {
    let key = SetPage::supplemental(scope::LOCAL, decryption::MIXED, 0x22);
    let mut locked = full([0, 1, 2, 3]);
    locked.nexuses.iter_mut().for_each(|nexus| nexus.lock = true);
    for (record, nexus, page) in [(record(), 15, key), (locked, 5, SetPage::k())] {
        let mut stage = Stage::new("faulty bytes: answers after 8", record, sink);
        for (at, value) in [(1, 0x10), (1, 0x11), (4, 0x23), (8, 2), (17, 1), (19, 31)] {
            let mut page = page.bytes();
            page[at] = value;
            stage.call(security_out(nexus, page));
        }
        stage.finish();
    }
}

/// Status pages with a wrong code and a wrong length.
fn lengths_of_status_pages(sink: &mut Sink) {
    let mut commands = vec![power_on()];
    for length in [2, 4, 23, 24, 33] {
        let mut page = status_page_of(length);
        page[0] = 1;
        commands.push(read_status(page.clone()));
        page.push(0);
        commands.push(read_status(page));
    }
    sink(Session { name: "faulty bytes: lengths of status pages".to_string(), commands });
}
