//! Each nexus in each LOCAL place: it comes, is evicted, or leaves; the one that evicts it was PUBLIC or ALL.

use super::asking::Asking;
use crate::comparison::page_builder::SetPage;
use crate::comparison::session::{power_on, write, Sink};
use crate::sizes::{NEXUSES, PLACES};

pub fn sessions(sink: &mut Sink) {
    for nexus in 0..NEXUSES as u8 {
        for place in 1..PLACES as u8 {
            session(nexus, place, sink);
        }
    }
}

/// The places are taken in order, the nexus's own unlocked and those below it locked. Another nexus evicts it, and it comes
/// back to a place of an unlocked nexus, or is answered 10.
fn session(nexus: u8, place: u8, sink: &mut Sink) {
    let other = |step: u8| (nexus + step) % NEXUSES as u8;
    let (evicting, in_place_zero) = (other(6), other(7));
    let mut asking = Asking::new();
    if matches!(nexus % 2, 0) {
        asking.send(evicting, &SetPage::all());
    }
    for taken in 1..PLACES as u8 {
        let (owner, lock) = if taken == place { (nexus, false) } else { (other(taken), taken < place) };
        asking.send(owner, &SetPage { lock, ..SetPage::k() });
    }
    asking.send(evicting, &SetPage::k());
    for told in [nexus, in_place_zero] {
        asking.call(write(told, true));
    }
    asking.send(nexus, &SetPage::k());
    asking.call(power_on());
    asking.finish("whom sets serve: evictions", sink);
}
