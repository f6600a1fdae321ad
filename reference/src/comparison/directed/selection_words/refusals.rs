//! Calls that are refused, with each answer from 2 to 18 and 22: the words stay.

use super::asking::Asking;
use crate::codes::{decryption, scope};
use crate::comparison::batch_builder::BatchParts;
use crate::comparison::page_builder::SetPage;
use crate::comparison::session::{
    event, event_of, read, security_in, security_out, vendor_release, write, Sink,
};
use crate::stream::{kind, Command};

/// The owners of places 1 to 4.
const OWNERS: [u8; 4] = [3, 12, 0, 7];

pub fn sessions(sink: &mut Sink) {
    for lock in [false, true] {
        over_sets(lock, sink);
    }
    over_changes(sink);
}

/// Refused calls of a nexus with a place and of one without, whose LOCAL page finds none where all are locked.
fn over_sets(lock: bool, sink: &mut Sink) {
    let page = SetPage { lock, ..SetPage::k() };
    let key = SetPage::supplemental(scope::LOCAL, decryption::DECRYPT, 5);
    let mut wrong = page.bytes();
    wrong[8] = 9;
    let mut asking = Asking::new();
    OWNERS.into_iter().for_each(|owner| asking.send(owner, &page));
    (0..5).for_each(|_| asking.send(OWNERS[1], &key));
    for nexus in [OWNERS[1], 8, 16] {
        for call in [
            Command { protocol: 0x21, ..security_in(nexus, 0x0020, 24) },
            Command { protocol: 0, ..security_out(nexus, page.bytes()) },
            security_in(nexus, 0x0021, 24),
            Command { argument: 0x0020, ..security_out(nexus, page.bytes()) },
            security_out(nexus, page.bytes()[..51].to_vec()),
            security_out(nexus, wrong.clone()),
            security_out(nexus, SetPage::labs().bytes()),
            write(nexus, false),
            read(nexus, 3, 255),
            read(nexus, 1, 255),
            read(nexus, 0, 255),
            read(nexus, 2, 255),
            event_of(kind::PREEMPT, nexus),
        ] {
            asking.call(call);
        }
    }
    let two = BatchParts::of(&[write(3, true), event(kind::MICROCODE)]);
    asking.call(vendor_release(5));
    asking.call(two.clone().with_room(7).command());
    asking.call(two.with_left_over(3).command());
    asking.send(8, &page);
    asking.finish("whom sets serve: refused calls", sink);
}

/// Calls that aren't carried out, and writes that a lock stops, after changes by a nexus and by an event.
fn over_changes(sink: &mut Sink) {
    let mut asking = Asking::new();
    asking.send(5, &SetPage::public(true));
    asking.send(3, &SetPage::k());
    asking.send(6, &SetPage::all());
    asking.call(event(kind::DEMOUNT));
    let pages = [SetPage::k(), SetPage::all(), SetPage::public(false)];
    for nexus in [5, 3, 6] {
        pages.iter().for_each(|page| asking.call(security_out(nexus, page.bytes())));
        (0..3).for_each(|_| asking.call(write(nexus, true)));
    }
    for nexus in [5, 3] {
        asking.send(nexus, &SetPage::public(true));
        asking.call(vendor_release(0));
        (0..3).for_each(|_| asking.call(write(nexus, true)));
    }
    asking.finish("whom sets serve: calls that aren't carried out", sink);
}
