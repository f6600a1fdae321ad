//! Places that calls of each kind empty after all were taken, with the LOCAL page that looks for one just after it; and
//! their former owners, whose locks stay, but not their places.

use super::sequence::{Held, Sequence};
use crate::codes::scope;
use crate::comparison::page_builder::SetPage;
use crate::comparison::place_cases::{EmptiedBy, LOCAL_PLACES};
use crate::comparison::session::Sink;
use crate::stream::kind;

const MICROCODE: EmptiedBy = EmptiedBy::Event(kind::MICROCODE);
const OWNERS: [u8; 4] = [6, 15, 0, 11];
/// Nexuses that never have a place before.
const STRANGERS: [u8; 2] = [13, 2];

/// Each kind of call over each set of places, locked or not.
pub fn sessions(sink: &mut Sink) {
    for by in EmptiedBy::EVERY {
        for pattern in 1..16 {
            if by == MICROCODE && pattern != 15 {
                continue; // it empties all
            }
            for lock in [false, true] {
                session(by, pattern, lock, sink);
            }
        }
    }
}

/// All places are taken, and a stranger finds none where they are locked. Those of the pattern's bits are emptied. Their
/// former owners send LOCAL, that of the highest place first; where they are one or three, or after microcode, the
/// stranger does so before them. Then all places are taken again, and another stranger comes.
fn session(by: EmptiedBy, pattern: usize, lock: bool, sink: &mut Sink) {
    let mut sequence = Sequence::new();
    let mut emptied = Vec::new();
    for (place, owner) in LOCAL_PLACES.zip(OWNERS) {
        if pattern >> (place - 1) & 1 != 0 {
            sequence.send(owner, &SetPage::releasable(scope::LOCAL, lock));
            emptied.push(Held { place, owner });
        } else {
            sequence.send_local(owner, lock);
        }
    }
    let [stranger, other] = STRANGERS;
    if lock {
        sequence.send_local(stranger, lock);
    }
    sequence.empty(by, &emptied, lock);
    if emptied.len() % 2 == 1 || by == MICROCODE {
        sequence.send_local(stranger, lock);
    }
    emptied.iter().rev().for_each(|held| sequence.send_local(held.owner, lock));
    sequence.send_local(other, lock);
    sequence.finish("places emptied after all were taken", sink);
}
