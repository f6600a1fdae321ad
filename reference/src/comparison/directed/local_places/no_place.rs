//! Answer 10, and what it leaves: of a nexus that is PUBLIC, ALL, or PUBLIC and still the owner in place 0. Before it comes
//! an ALL key, which looks for no place.

use super::sequence::{lasting_all, Sequence};
use crate::codes::{decryption, scope};
use crate::comparison::page_builder::SetPage;
use crate::comparison::session::{event, write, Sink};
use crate::stream::kind;

const SENDER: u8 = 10;
const OWNERS: [u8; 4] = [7, 1, 15, 4];

pub fn sessions(sink: &mut Sink) {
    for pattern in 0..8 {
        let [lock, asked, without_marks] = [0, 1, 2].map(|bit| pattern >> bit & 1 != 0);
        let (public, all) = (SetPage::public(lock), lasting_all(lock));
        for before in [vec![public.clone()], vec![all.clone()], vec![all, public]] {
            let mut sequence = Sequence::new();
            before.iter().for_each(|page| sequence.send(SENDER, page));
            OWNERS.into_iter().for_each(|owner| sequence.send_local(owner, true));
            if without_marks {
                sequence.call(event(kind::LOGICAL_UNIT_RESET));
            }
            sequence.send(SENDER, &SetPage::supplemental(scope::ALL, decryption::DECRYPT, 7));
            sequence.send_local(SENDER, asked);
            sequence.call(write(SENDER, true));
            sequence.finish("no place for a LOCAL set", sink);
        }
    }
}
