//! Each nexus in each place: its lock alone decides who is evicted, or that nobody is.

use super::sequence::Sequence;
use crate::comparison::page_builder::SetPage;
use crate::comparison::place_cases::LOCAL_PLACES;
use crate::comparison::session::{event, Sink};
use crate::sizes::NEXUSES;
use crate::stream::kind;

pub fn sessions(sink: &mut Sink) {
    for place in LOCAL_PLACES {
        for owner in 0..NEXUSES {
            evicted(place, owner, sink);
            passed_over(place, owner, sink);
        }
    }
}

/// The nexuses beside one: three that take the other places in turn, and one that never had a place.
fn others(nexus: usize) -> [u8; 4] {
    [1, 2, 3, 4].map(|step| ((nexus + 5 * step) % NEXUSES) as u8)
}

/// All places are taken: those below this one by locked nexuses, this one by a nexus with this lock, and those above it by
/// nexuses with the other one. Half of the time its lock comes with its next LOCAL page, or the registered marks go.
fn all_taken(place: usize, owner: usize, lock: bool) -> Sequence {
    let is_turned = (place + owner / 2) % 2 == 1;
    let mut sequence = Sequence::new();
    let mut others = others(owner).into_iter();
    for taken in LOCAL_PLACES {
        if taken == place {
            sequence.send_local(owner as u8, lock != is_turned);
        } else {
            sequence.send_local(others.next().expect("another nexus"), taken < place || !lock);
        }
    }
    if is_turned {
        sequence.send_local(owner as u8, lock);
    }
    if (place + owner) % 2 == 1 {
        sequence.call(event(kind::LOGICAL_UNIT_RESET));
    }
    sequence
}

/// The nexus is the only one without a lock, and is evicted. It comes back, half of the time as a locked PUBLIC nexus, and
/// finds no place; then once more, when its former place and another one are empty.
fn evicted(place: usize, owner: usize, sink: &mut Sink) {
    let mut sequence = all_taken(place, owner, false);
    let [leaving, _, _, evicting] = others(owner);
    sequence.send_local(evicting, true);
    if owner % 2 == 1 {
        sequence.send(owner as u8, &SetPage::public(true));
    }
    sequence.send_local(owner as u8, true);
    for nexus in [evicting, leaving] {
        sequence.send(nexus, &SetPage::public(true));
    }
    sequence.send_local(owner as u8, true);
    sequence.finish("each nexus evicted from each place", sink);
}

/// The nexus is locked, and so are those below it; the next one is evicted, or nobody is. It keeps its place.
fn passed_over(place: usize, owner: usize, sink: &mut Sink) {
    let mut sequence = all_taken(place, owner, true);
    let [.., stranger] = others(owner);
    sequence.send_local(stranger, owner % 4 < 2);
    sequence.send_local(owner as u8, true);
    sequence.finish("each nexus passed over in each place", sink);
}
