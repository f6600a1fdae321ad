//! Locks that come after the places are taken: by the owner's next LOCAL page, and not by a supplemental key or a page
//! that is refused.

use super::sequence::{lasting, Sequence};
use crate::codes::{decryption, scope};
use crate::comparison::page_builder::SetPage;
use crate::comparison::session::{security_out, Sink};

const OWNERS: [u8; 4] = [9, 14, 0, 3];
const SENDERS: [u8; 2] = [12, 5];

pub fn sessions(sink: &mut Sink) {
    for pattern in 0..16 {
        let locks = [0, 1, 2, 3].map(|at| pattern >> at & 1 != 0);
        (0..4).for_each(|at| turned(locks, at, sink));
    }
    [false, true].into_iter().for_each(|lock| unturned(lock, sink));
}

/// All places are taken, by nexuses with these locks.
fn taken(locks: [bool; 4]) -> Sequence {
    let mut sequence = Sequence::new();
    OWNERS.into_iter().zip(locks).for_each(|(owner, lock)| sequence.send_local(owner, lock));
    sequence
}

/// Two nexuses without a place send LOCAL.
fn finish(mut sequence: Sequence, sink: &mut Sink) {
    SENDERS.into_iter().for_each(|nexus| sequence.send_local(nexus, true));
    sequence.finish("locks turned and not", sink);
}

/// One owner's next LOCAL page turns its lock.
fn turned(locks: [bool; 4], at: usize, sink: &mut Sink) {
    let mut sequence = taken(locks);
    sequence.send_local(OWNERS[at], !locks[at]);
    finish(sequence, sink);
}

/// Supplemental keys up to the fifth, a page that is cut and one with a wrong field have the other LOCK, from every owner.
fn unturned(lock: bool, sink: &mut Sink) {
    let mut sequence = taken([lock; 4]);
    let other = lasting(!lock);
    for owner in OWNERS {
        for key in 1..=5 {
            let key = SetPage::supplemental(scope::LOCAL, decryption::DECRYPT, key);
            sequence.send(owner, &SetPage { lock: !lock, ..key });
        }
        sequence.call(security_out(owner, other.bytes()[..51].to_vec()));
        sequence.send(owner, &SetPage { algorithm: 2, ..other.clone() });
    }
    finish(sequence, sink);
}
