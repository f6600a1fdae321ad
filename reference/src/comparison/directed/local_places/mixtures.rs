//! Every mixture of the places, each empty or used by a nexus with lock 0 or 1, with nexus 0 locked, not locked, and with
//! a place of its own; and in each of them the pages that look for a place, or for none.

use super::sequence::{lasting, lasting_all, Held, Sequence};
use crate::codes::{decryption, scope};
use crate::comparison::page_builder::{descriptor, SetPage};
use crate::comparison::place_cases::{EmptiedBy, NexusZero, PlaceState, Situation, LOCAL_PLACES};
use crate::comparison::session::{vendor_release, Sink};
use crate::sizes::PLACES;
use crate::stream::kind;

/// What empties places here; place 0 stays as it is.
const EMPTIED_BY: [EmptiedBy; 5] = [
    EmptiedBy::PublicPage,
    EmptiedBy::Event(kind::VENDOR_RELEASE),
    EmptiedBy::Event(kind::DEMOUNT),
    EmptiedBy::Event(kind::NEXUS_RESERVATION_LOSS),
    EmptiedBy::Event(kind::PREEMPT),
];

/// A session for each situation.
pub fn sessions(sink: &mut Sink) {
    for (turn, situation) in Situation::every().into_iter().enumerate() {
        let scene = Scene::new(situation, turn);
        let mut sequence = Sequence::new();
        scene.take_places(&mut sequence);
        scene.empty_places(&mut sequence);
        scene.look_for_no_place(&mut sequence);
        scene.look_for_place(&mut sequence);
        sequence.finish("every mixture of the places", sink);
    }
}

/// A situation and the nexuses in it, which are others each turn.
struct Scene {
    situation: Situation,
    turn: usize,
    /// The nexuses that take places 1 to 4; those of the empty ones lose them again.
    owners: [u8; 4],
    /// The nexus whose ALL set is in place 0, if one is.
    all_owner: u8,
    /// Nexuses that never have a place before.
    strangers: [u8; 4],
}

impl Scene {
    /// The situation with the nexuses of a turn.
    fn new(situation: Situation, turn: usize) -> Self {
        let nexus = |role: usize| 1 + ((turn + 4 * role) % 15) as u8;
        let [owners, strangers] = [[0, 1, 2, 3], [4, 5, 6, 7]].map(|roles| roles.map(nexus));
        let mut scene = Scene { situation, turn, owners, all_owner: nexus(8), strangers };
        if let (NexusZero::HasPlace, Some(place)) = (situation.nexus_0, scene.one_taken()) {
            scene.owners[place - 1] = 0;
        }
        scene.all_owner = scene.all_owner_in_other_roles().unwrap_or(scene.all_owner);
        scene
    }

    /// A nexus with another role whose lock is that of place 0's owner: in turn nexus 0 without a LOCAL place, and the owner
    /// of one.
    fn all_owner_in_other_roles(&self) -> Option<u8> {
        let nexus_0 = match self.situation.nexus_0 {
            NexusZero::Unlocked => self.state(0) == PlaceState::Unlocked,
            NexusZero::Locked => self.state(0) == PlaceState::Locked,
            NexusZero::HasPlace => false,
        };
        let alike = self.situation.taken().into_iter().find(|&place| self.state(place) == self.state(0));
        if self.bit(1) {
            alike.map(|place| self.owners[place - 1])
        } else {
            nexus_0.then_some(0)
        }
    }

    /// Whether a nexus has a LOCAL place.
    fn has_place(&self, nexus: u8) -> bool {
        self.situation.taken().into_iter().any(|place| self.owners[place - 1] == nexus)
    }

    /// What a place is to be.
    fn state(&self, place: usize) -> PlaceState {
        self.situation.places[place]
    }

    /// Whether a place's owner is to have lock 1.
    fn is_locked(&self, place: usize) -> bool {
        self.state(place) == PlaceState::Locked
    }

    /// A bit that is another one every so many turns.
    fn bit(&self, turns: usize) -> bool {
        self.turn / turns % 2 == 1
    }

    /// One of the used LOCAL places, if there is one. It is nexus 0's, if that has one, and its set takes a supplemental key.
    fn one_taken(&self) -> Option<usize> {
        let taken = self.situation.taken();
        taken.get(self.turn % taken.len().max(1)).copied()
    }

    /// The places that are taken and emptied again; those above the last used one are left as at power-on half of the
    /// time.
    fn emptied(&self) -> Vec<Held> {
        let end = if self.bit(5) { PLACES } else { self.situation.taken().last().map_or(0, |last| last + 1) };
        let emptied = LOCAL_PLACES.filter(|&place| place < end && self.state(place) == PlaceState::Empty);
        emptied.map(|place| Held { place, owner: self.owners[place - 1] }).collect()
    }

    /// The page that takes a LOCAL place.
    fn page(&self, place: usize) -> SetPage {
        if self.state(place) == PlaceState::Empty {
            return SetPage::releasable(scope::LOCAL, self.bit(1));
        }
        let lasting = lasting(self.is_locked(place));
        if self.one_taken() == Some(place) {
            return SetPage { list: [descriptor(0, 9, 9), descriptor(1, 3, 3)].concat(), ..lasting };
        }
        let mixture = (self.turn + place) as u8 % 12;
        let SetPage { encryption, decryption, key, .. } =
            SetPage::of_modes(scope::LOCAL, mixture % 3, mixture / 3);
        SetPage { encryption, decryption, key, ..lasting }
    }

    /// Place 0 gets its ALL set, nexus 0 its lock, and the LOCAL places their sets.
    fn take_places(&self, sequence: &mut Sequence) {
        if self.state(0) != PlaceState::Empty {
            sequence.send(self.all_owner, &lasting_all(self.is_locked(0)));
        }
        if self.situation.nexus_0 == NexusZero::Locked && self.all_owner != 0 {
            sequence.send(0, &SetPage::public(true));
        }
        let emptied = self.emptied();
        for place in LOCAL_PLACES {
            let is_emptied = emptied.iter().any(|held| held.place == place);
            if is_emptied || self.state(place) != PlaceState::Empty {
                sequence.send(self.owners[place - 1], &self.page(place));
            }
        }
    }

    /// The places that are to be empty are emptied.
    fn empty_places(&self, sequence: &mut Sequence) {
        sequence.empty(EMPTIED_BY[self.turn % EMPTIED_BY.len()], &self.emptied(), self.bit(2));
    }

    /// Pages that look for no place, or find their sender's own. The situation stays, or comes again.
    fn look_for_no_place(&self, sequence: &mut Sequence) {
        let [stranger, other, ..] = self.strangers;
        sequence.send(stranger, &SetPage { algorithm: 2, ..lasting(self.bit(1)) });
        sequence.send(stranger, &SetPage::public(self.bit(2)));
        for place in self.situation.taken() {
            sequence.send(self.owners[place - 1], &self.page(place));
        }
        if let Some(place) = self.one_taken() {
            let key = SetPage::supplemental(scope::LOCAL, decryption::DECRYPT, place as u8);
            sequence.send(self.owners[place - 1], &key);
        }
        if self.state(0) == PlaceState::Empty {
            sequence.send(other, &lasting_all(self.bit(1)));
            sequence.call(vendor_release(0));
        } else {
            let is_others = self.bit(4) || self.has_place(self.all_owner);
            let sender = if is_others { other } else { self.all_owner };
            sequence.send(sender, &lasting_all(self.is_locked(0)));
        }
    }

    /// Two nexuses without a place send LOCAL. The first is a stranger, nexus 0, the owner in place 0 or one that has lost
    /// the highest empty place.
    fn look_for_place(&self, sequence: &mut Sequence) {
        let [.., stranger, other] = self.strangers;
        let mut senders = vec![stranger];
        if self.situation.nexus_0 != NexusZero::HasPlace {
            senders.push(0);
        }
        if self.state(0) != PlaceState::Empty && !self.has_place(self.all_owner) {
            senders.push(self.all_owner);
        }
        senders.extend(self.emptied().last().map(|held| held.owner));
        sequence.send_local(senders[self.turn / 2 % senders.len()], self.bit(3));
        sequence.send_local(other, self.bit(1));
    }
}
