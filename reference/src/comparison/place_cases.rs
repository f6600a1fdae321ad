//! What counts 02's request 4: pages by the states of the places that they meet, the place that a LOCAL page is given and
//! how, whose lock decides about it, and what calls before it did to the places.

use super::report::kind_name;
use crate::account::{Account, Rule};
use crate::codes::scope;
use crate::names::SCOPES;
use crate::record::{Nexus, Record};
use crate::sizes::{NEXUSES, PLACES};
use crate::stream::{kind, Command, Reply};
use std::fmt;
use std::ops::Range;

/// 01: "places 1 to 4 hold LOCAL sets".
pub const LOCAL_PLACES: Range<usize> = 1..PLACES;

/// What a place is to a nexus that looks for one.
#[derive(Clone, Copy, PartialEq, Eq, PartialOrd, Ord, Debug)]
pub enum PlaceState {
    Empty,
    /// Used, and its owner has lock 0.
    Unlocked,
    /// Used, and its owner has lock 1.
    Locked,
}

impl PlaceState {
    const EVERY: [PlaceState; 3] = [PlaceState::Empty, PlaceState::Unlocked, PlaceState::Locked];

    /// The state of a place in a well-formed record.
    fn of(record: &Record, place: usize) -> PlaceState {
        let set = &record.places[place];
        match (set.is_used(), record.nexuses[usize::from(set.owner)].lock) {
            (false, _) => PlaceState::Empty,
            (true, false) => PlaceState::Unlocked,
            (true, true) => PlaceState::Locked,
        }
    }
}

/// Nexus 0, whose number is the owner byte of an empty place too.
#[derive(Clone, Copy, PartialEq, Eq, PartialOrd, Ord, Debug)]
pub enum NexusZero {
    /// It has no LOCAL place, and lock 0.
    Unlocked,
    /// It has no LOCAL place, and lock 1.
    Locked,
    HasPlace,
}

/// The places and nexus 0 as a page meets them.
#[derive(Clone, Copy, PartialEq, Eq, PartialOrd, Ord, Debug)]
pub struct Situation {
    pub places: [PlaceState; PLACES],
    pub nexus_0: NexusZero,
}

impl Situation {
    /// Every mixture of the places with all that nexus 0 can be in it.
    pub fn every() -> Vec<Situation> {
        let mut mixtures = vec![Vec::new()];
        for _ in 0..PLACES {
            let longer = |mixture: Vec<_>| PlaceState::EVERY.map(|state| [&mixture[..], &[state]].concat());
            mixtures = mixtures.into_iter().flat_map(longer).collect();
        }
        let mut every = Vec::new();
        for mixture in mixtures {
            let places = mixture.try_into().expect("a state for each place");
            let nexus_0 = [NexusZero::Unlocked, NexusZero::Locked, NexusZero::HasPlace];
            every.extend(nexus_0.map(|nexus_0| Situation { places, nexus_0 }));
        }
        every.retain(|situation| situation.nexus_0 != NexusZero::HasPlace || !situation.taken().is_empty());
        every
    }

    /// The situation in a well-formed record.
    fn of(record: &Record) -> Situation {
        let mut places = [PlaceState::Empty; PLACES];
        for (place, state) in places.iter_mut().enumerate() {
            *state = PlaceState::of(record, place);
        }
        let nexus_0 = match (record.nexuses[0].scope, record.nexuses[0].lock) {
            (scope::LOCAL, _) => NexusZero::HasPlace,
            (_, false) => NexusZero::Unlocked,
            (_, true) => NexusZero::Locked,
        };
        Situation { places, nexus_0 }
    }

    /// The used LOCAL places.
    pub fn taken(&self) -> Vec<usize> {
        LOCAL_PLACES.filter(|&place| self.places[place] != PlaceState::Empty).collect()
    }
}

/// A page by what it asks for and what its sender has.
#[derive(Clone, Copy, PartialEq, Eq, PartialOrd, Ord, Debug)]
pub enum Sent {
    LocalWithoutPlace,
    LocalFromPlace(usize),
    All,
    Public,
    /// A supplemental key that is appended to a LOCAL set.
    SupplementalKey,
    /// LOCAL from a nexus without a place, refused for a field.
    WrongLocal,
}

impl Sent {
    /// Every page that there can be in a situation.
    fn every(situation: &Situation) -> Vec<Sent> {
        let taken = situation.taken();
        let mut every = vec![Sent::LocalWithoutPlace, Sent::All, Sent::Public, Sent::WrongLocal];
        if !taken.is_empty() {
            every.push(Sent::SupplementalKey);
        }
        every.extend(taken.into_iter().map(Sent::LocalFromPlace));
        every
    }

    /// A call's page, if it is one of these and was looked at.
    fn of(command: &Command, before: &Record, reply: &Reply) -> Option<Sent> {
        if command.kind != kind::OUT || !matches!(reply.number, 0 | 8 | 10) {
            return None;
        }
        let (scope, sdk) = (command.data[4] >> 5, command.data[5] & 0x08 != 0);
        match (scope, sdk, reply.number, before.local_place(usize::from(command.nexus))) {
            (scope::PUBLIC, _, 0, _) => Some(Sent::Public),
            (scope::ALL, false, 0, _) => Some(Sent::All),
            (scope::LOCAL, true, 0, _) => Some(Sent::SupplementalKey),
            (scope::LOCAL, false, 8, None) => Some(Sent::WrongLocal),
            (scope::LOCAL, false, 0, Some(place)) => Some(Sent::LocalFromPlace(place)),
            (scope::LOCAL, false, 0 | 10, None) => Some(Sent::LocalWithoutPlace),
            _ => None,
        }
    }
}

/// How a LOCAL page comes to its place; 01: "its present place, else the lowest empty one, else the lowest whose owner has
/// lock 0, which is first released; else answer 10".
#[derive(Clone, Copy, PartialEq, Eq, PartialOrd, Ord, Debug)]
pub enum Way {
    Kept,
    Empty,
    Evicts,
    Answer10,
}

impl Way {
    const EVERY: [Way; 4] = [Way::Kept, Way::Empty, Way::Evicts, Way::Answer10];

    /// How the page at hand came to a place, and to which; to none it is 0.
    fn of(account: &Account) -> Option<(Way, usize)> {
        account.steps.iter().find_map(|step| {
            let way = match step.rule {
                Rule::LocalTakesPresentPlace => Way::Kept,
                Rule::LocalTakesLowestEmptyPlace => Way::Empty,
                Rule::LocalTakesPlaceOfUnlockedOwner => Way::Evicts,
                Rule::LocalFindsNoPlace => Way::Answer10,
                _ => return None,
            };
            Some((way, step.place.unwrap_or(0)))
        })
    }

    /// The places that it can come to.
    fn places(self) -> Range<usize> {
        if self == Way::Answer10 {
            0..1
        } else {
            LOCAL_PLACES
        }
    }
}

/// The call that emptied a LOCAL place.
#[derive(Clone, Copy, PartialEq, Eq, PartialOrd, Ord, Debug)]
pub enum EmptiedBy {
    PublicPage,
    AllPage,
    Event(u8),
}

impl EmptiedBy {
    pub const EVERY: [EmptiedBy; 7] = [
        EmptiedBy::PublicPage,
        EmptiedBy::AllPage,
        EmptiedBy::Event(kind::DEMOUNT),
        EmptiedBy::Event(kind::NEXUS_RESERVATION_LOSS),
        EmptiedBy::Event(kind::PREEMPT),
        EmptiedBy::Event(kind::MICROCODE),
        EmptiedBy::Event(kind::VENDOR_RELEASE),
    ];

    /// What a call that released a LOCAL place is; a LOCAL page took it at once.
    fn of(command: &Command) -> Option<EmptiedBy> {
        match (command.kind, command.data.get(4).map(|byte| byte >> 5)) {
            (kind::OUT, Some(scope::PUBLIC)) => Some(EmptiedBy::PublicPage),
            (kind::OUT, Some(scope::ALL)) => Some(EmptiedBy::AllPage),
            (kind::OUT, _) => None,
            (kind, _) => Some(EmptiedBy::Event(kind)),
        }
    }
}

/// A yes or no with each other one.
const PAIRS: [(bool, bool); 4] = [(false, false), (false, true), (true, false), (true, true)];

/// Something about places to come to.
#[derive(Clone, Copy, PartialEq, Eq, PartialOrd, Ord, Debug)]
pub enum PlaceCase {
    /// The place that a LOCAL page is given.
    Given {
        way: Way,
        place: usize,
    },
    /// A page that is sent in a situation.
    Sent {
        situation: Situation,
        sent: Sent,
    },
    GivenTo {
        way: Way,
        nexus: usize,
    },
    /// A LOCAL page from this place whose nexus is the owner in place 0 too.
    OwnsPlaceZeroToo {
        place: usize,
    },
    /// The nexus that a LOCAL page evicts.
    Evicted {
        place: usize,
        owner: usize,
    },
    /// A nexus whose lock keeps a LOCAL page from its place, where the next higher one is asked or none is left.
    PassedOver {
        place: usize,
        owner: usize,
    },
    /// Answer 10, by its nexus's scope and lock, and the page's LOCK.
    Answer10 {
        scope: u8,
        lock: bool,
        asked: bool,
    },
    /// The owner's next LOCAL page has another LOCK.
    LockTurned {
        place: usize,
        lock: bool,
    },
    /// An empty place that a LOCAL page is given, by what emptied it.
    EmptiedBy {
        place: usize,
        by: EmptiedBy,
    },
    /// A LOCAL page of a nexus that lost this place and isn't given it again, by whether it was evicted, by its lock, and
    /// by whether another has taken the place. If not, a lower one is empty.
    Returns {
        place: usize,
        evicted: bool,
        lock: bool,
        taken: bool,
    },
}

impl PlaceCase {
    /// Every case.
    pub fn every() -> Vec<PlaceCase> {
        let mut every = Vec::new();
        for way in Way::EVERY {
            every.extend(way.places().map(|place| PlaceCase::Given { way, place }));
            every.extend((0..NEXUSES).map(|nexus| PlaceCase::GivenTo { way, nexus }));
        }
        for situation in Situation::every() {
            every.extend(Sent::every(&situation).into_iter().map(|sent| PlaceCase::Sent { situation, sent }));
        }
        for place in LOCAL_PLACES {
            every.extend((0..NEXUSES).map(|owner| PlaceCase::Evicted { place, owner }));
            every.extend((0..NEXUSES).map(|owner| PlaceCase::PassedOver { place, owner }));
            every.push(PlaceCase::OwnsPlaceZeroToo { place });
            every.extend(EmptiedBy::EVERY.map(|by| PlaceCase::EmptiedBy { place, by }));
            every.extend([false, true].map(|lock| PlaceCase::LockTurned { place, lock }));
            for (evicted, lock) in PAIRS {
                every.push(PlaceCase::Returns { place, evicted, lock, taken: true });
                if place > LOCAL_PLACES.start {
                    every.push(PlaceCase::Returns { place, evicted, lock, taken: false });
                }
            }
        }
        for (lock, asked) in PAIRS {
            every.extend([scope::PUBLIC, scope::ALL].map(|scope| PlaceCase::Answer10 { scope, lock, asked }));
        }
        every
    }

    /// The group it is counted in.
    pub fn group(self) -> &'static str {
        match self {
            PlaceCase::Given { .. } => "places that LOCAL pages are given",
            PlaceCase::Sent { .. } => "pages by the states of the places and nexus 0",
            PlaceCase::GivenTo { .. } => "LOCAL pages by nexus and the way to a place",
            PlaceCase::OwnsPlaceZeroToo { .. } => "LOCAL pages of nexuses that own place 0 too, by place",
            PlaceCase::Evicted { .. } => "nexuses evicted, by place",
            PlaceCase::PassedOver { .. } => "locked nexuses passed over, by place",
            PlaceCase::Answer10 { .. } => "answer 10 by the nexus's scope and locks",
            PlaceCase::LockTurned { .. } => "locks turned in a present place",
            PlaceCase::EmptiedBy { .. } => "empty places given, by what emptied them",
            PlaceCase::Returns { .. } => "nexuses that aren't given their former place",
        }
    }

    /// Whether it is one of all the values of something, which are the directed sessions' task.
    pub fn is_one_of_all_values(self) -> bool {
        !matches!(self, PlaceCase::Given { .. })
    }
}

/// The place that a nexus lost last.
#[derive(Clone, Copy)]
struct FormerPlace {
    place: usize,
    evicted: bool,
}

/// What the calls from power-on to the one at hand did to LOCAL places, as far as they tell it one by one.
#[derive(Default)]
pub struct PlaceHistory {
    emptied_by: [Option<EmptiedBy>; PLACES],
    former_place: [Option<FormerPlace>; NEXUSES],
}

impl PlaceHistory {
    /// The cases that a call comes to, over the record before it. Then the call is history.
    pub fn follow(
        &mut self,
        command: &Command,
        before: &Record,
        reply: &Reply,
        account: &Account,
    ) -> Vec<PlaceCase> {
        let mut cases = Vec::new();
        if let Some(sent) = Sent::of(command, before, reply) {
            cases.push(PlaceCase::Sent { situation: Situation::of(before), sent });
        }
        if let Some((way, place)) = Way::of(account) {
            cases.extend(of_given(command, before, way, place));
            cases.extend(self.of_past(usize::from(command.nexus), before, way, place));
        }
        self.add(command, before, account);
        cases
    }

    /// The cases of a LOCAL page that comes to a place, or to none, by what calls before it did.
    fn of_past(&self, nexus: usize, before: &Record, way: Way, place: usize) -> Vec<PlaceCase> {
        let emptied_by = self.emptied_by[place].filter(|_| way == Way::Empty);
        let mut cases: Vec<_> = emptied_by.map(|by| PlaceCase::EmptiedBy { place, by }).into_iter().collect();
        let former = self.former_place[nexus].filter(|former| way != Way::Kept && former.place != place);
        cases.extend(former.map(|FormerPlace { place, evicted }| {
            let (lock, taken) = (before.nexuses[nexus].lock, before.places[place].is_used());
            PlaceCase::Returns { place, evicted, lock, taken }
        }));
        cases
    }

    /// Adds a call. A loaded record has no history here, nor has a batch's.
    fn add(&mut self, command: &Command, before: &Record, account: &Account) {
        if matches!(command.kind, kind::POWER_ON | kind::LOAD_RECORD | kind::BATCH) {
            *self = PlaceHistory::default();
        }
        let released = account.steps.iter().filter(|step| step.rule == Rule::Releases);
        for place in released.filter_map(|step| step.place).filter(|place| LOCAL_PLACES.contains(place)) {
            let emptied_by = EmptiedBy::of(command);
            let former_place = FormerPlace { place, evicted: emptied_by.is_none() };
            self.emptied_by[place] = emptied_by;
            self.former_place[usize::from(before.places[place].owner)] = Some(former_place);
        }
    }
}

/// The cases of a LOCAL page that comes to a place, or to none, over the record before it.
fn of_given(command: &Command, before: &Record, way: Way, place: usize) -> Vec<PlaceCase> {
    let nexus = usize::from(command.nexus);
    let owner = |place: usize| usize::from(before.places[place].owner);
    let mut cases = vec![PlaceCase::Given { way, place }, PlaceCase::GivenTo { way, nexus }];
    let passed_over = match way {
        Way::Kept | Way::Empty => 0..0,
        Way::Evicts => LOCAL_PLACES.start..place,
        Way::Answer10 => LOCAL_PLACES,
    };
    cases.extend(passed_over.map(|place| PlaceCase::PassedOver { place, owner: owner(place) }));
    if way == Way::Kept && before.places[0].is_used() && owner(0) == nexus {
        cases.push(PlaceCase::OwnsPlaceZeroToo { place });
    }
    let Nexus { scope, lock, .. } = before.nexuses[nexus];
    let asked = command.data[4] & 1 != 0;
    match way {
        Way::Kept if asked != lock => cases.push(PlaceCase::LockTurned { place, lock: asked }),
        Way::Evicts => cases.push(PlaceCase::Evicted { place, owner: owner(place) }),
        Way::Answer10 => cases.push(PlaceCase::Answer10 { scope, lock, asked }),
        _ => {}
    }
    cases
}

impl fmt::Display for EmptiedBy {
    fn fmt(&self, formatter: &mut fmt::Formatter) -> fmt::Result {
        match *self {
            EmptiedBy::PublicPage => formatter.write_str("a PUBLIC page"),
            EmptiedBy::AllPage => formatter.write_str("an ALL page"),
            EmptiedBy::Event(kind) => formatter.write_str(kind_name(kind)),
        }
    }
}

impl fmt::Display for PlaceCase {
    fn fmt(&self, formatter: &mut fmt::Formatter) -> fmt::Result {
        match *self {
            PlaceCase::Given { way: Way::Answer10, .. } => formatter.write_str("Answer10"),
            PlaceCase::Given { way, place } => write!(formatter, "{way:?} {place}"),
            PlaceCase::Sent { situation: Situation { places, nexus_0 }, sent } => {
                write!(formatter, "{sent:?}, places 0 to 4 {places:?}, nexus 0 {nexus_0:?}")
            }
            PlaceCase::GivenTo { way, nexus } => write!(formatter, "{way:?}, nexus {nexus}"),
            PlaceCase::Evicted { place, owner } | PlaceCase::PassedOver { place, owner } => {
                write!(formatter, "place {place}, nexus {owner}")
            }
            PlaceCase::OwnsPlaceZeroToo { place } => write!(formatter, "place {place}"),
            PlaceCase::Answer10 { scope, lock, asked } => {
                let (scope, lock, asked) = (SCOPES[usize::from(scope)], u8::from(lock), u8::from(asked));
                write!(formatter, "{scope}, lock {lock}, LOCK {asked}")
            }
            PlaceCase::LockTurned { place, lock } => {
                write!(formatter, "place {place}, to lock {}", u8::from(lock))
            }
            PlaceCase::EmptiedBy { place, by } => write!(formatter, "place {place}, {by}"),
            PlaceCase::Returns { place, evicted, lock, taken } => {
                let lost = if evicted { "evicted" } else { "released" };
                let now = if taken { "taken" } else { "empty" };
                write!(formatter, "place {place}, {lost}, {now} now, lock {}", u8::from(lock))
            }
        }
    }
}
