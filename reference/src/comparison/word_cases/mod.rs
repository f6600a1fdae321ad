//! What counts 02's request 7: whom the sets serve and after which calls it is asked, bits that move from word to word, who
//! is told of it, and records whose words are wrong, by the kind of call that meets them.

mod after;
mod due;
mod ignored;
mod standing;
mod stays;
mod told;
mod wrong;

use super::report::kind_name;
use crate::account::{Account, Rule};
use crate::record::Record;
use crate::recording::{Batch, Event};
use crate::selection_words::bit;
use crate::sizes::{NEXUSES, PLACES};
use crate::stream::{kind, Command, Reply};
use crate::well_formed::{broken_clauses, Clause};
use after::After;
use ignored::Ignored;
pub use ignored::IgnoredByte;
pub use standing::Standing;
use std::fmt;
pub use told::By;
use told::{How, Why};
pub use wrong::WrongWords;

/// Place arguments above 4: all of one byte, those of two bytes whose low byte alone would be a place, and the highest.
pub fn places_above_4() -> impl Iterator<Item = u16> {
    let with_high_byte = |high: u16| (0..PLACES as u16).map(move |place| high << 8 | place);
    (PLACES as u16..=255).chain((1..=255).flat_map(with_high_byte)).chain([0xFFFF])
}

/// Every kind of call, a batch and kind 13 among them.
const KINDS: std::ops::RangeInclusive<u8> = kind::POWER_ON..=kind::SERVES;

/// Something about selection words to come to.
#[derive(Clone, Copy, PartialEq, Eq, PartialOrd, Ord, Debug)]
pub enum WordCase {
    /// Kind 13 tells somebody or nobody. Place 0 always serves somebody: places 1 to 4 serve one nexus each at most.
    Serves {
        place: usize,
        nobody: bool,
    },
    /// Kind 13 tells that a nexus is served from a place, or that it isn't.
    Served {
        place: usize,
        nexus: usize,
        is_served: bool,
    },
    /// So many nexuses are served from place 0.
    ServedFromPlaceZero(usize),
    /// Kind 13 about a place after a call.
    ServesAfter {
        after: After,
        place: usize,
    },
    PlaceAbove4(u16),
    /// Kind 13 about a place above 4 over a record that isn't well formed.
    OneBeforeThirteen,
    /// What kind 13 is answered with something in a field that it ignores.
    Ignores {
        ignored: Ignored,
        number: u8,
    },
    /// What kind 13 is answered with a value in a byte that it ignores.
    AskedWith {
        byte: IgnoredByte,
        value: u8,
        number: u8,
    },
    /// What kind 13 is answered in the name of a nexus.
    AskedInNameOf {
        nexus: usize,
        standing: Standing,
        number: u8,
    },
    /// A nexus's bit comes to the word of a LOCAL place, or leaves it for place 0's.
    Moves {
        place: usize,
        nexus: usize,
        comes: bool,
    },
    /// A LOCAL page's sender comes to an empty place, or to one whose owner it evicts.
    ComesTo {
        place: usize,
        evicts: bool,
    },
    /// What makes a nexus leave a LOCAL place.
    LeavesBy {
        place: usize,
        nexus: usize,
        by: By,
    },
    /// A nexus gets a flag, or gets none.
    Told {
        by: By,
        how: How,
    },
    NexusTold {
        by: By,
        nexus: usize,
    },
    NotTold {
        by: By,
        why: Why,
    },
    /// A nexus that is registered and not acting stays in a place whose number stays too, while another's number changes.
    NotToldOfOther {
        by: By,
        nexus: usize,
        place: usize,
        other: usize,
    },
    /// A nexus that isn't acting loses its place, or its place's number changes.
    ChangedFor {
        by: By,
        nexus: usize,
        place: usize,
        registered: bool,
    },
    /// A call that is done leaves a nexus's bit in the word it was in.
    BitStays {
        kind: u8,
        nexus: usize,
        place: usize,
    },
    /// A record with just one wrong bit, by the kind of call that meets it.
    WrongBit {
        place: usize,
        bit: usize,
        kind: u8,
    },
    /// A record whose words are wrong in another way.
    Wrong {
        words: WrongWords,
        kind: u8,
    },
    /// A record in which a word of a LOCAL place has the bit of a nexus that place 0 serves, and place 0's hasn't.
    KeptByReleased {
        place: usize,
        nexus: usize,
    },
    /// A record with wrong words, met by a call that would be refused with another number if they were right.
    OneBefore {
        kind: u8,
        number: u8,
    },
    /// A record with wrong words, met by a call in the name of a nexus.
    WrongInNameOf {
        kind: u8,
        nexus: usize,
        standing: Standing,
    },
    /// A record that breaks a clause of the sets or the nexuses, and whose words are wrong too.
    BesideClause(Clause),
}

impl WordCase {
    /// Every case.
    pub fn every() -> Vec<WordCase> {
        let mut every = vec![WordCase::OneBeforeThirteen];
        for place in 0..PLACES {
            let nobody = if place == 0 { &[false][..] } else { &[false, true] };
            every.extend(nobody.iter().map(|&nobody| WordCase::Serves { place, nobody }));
            for nexus in 0..NEXUSES {
                let served = |is_served| WordCase::Served { place, nexus, is_served };
                every.extend([false, true].map(served));
                if place > 0 {
                    every.extend([false, true].map(|comes| WordCase::Moves { place, nexus, comes }));
                    every.push(WordCase::KeptByReleased { place, nexus });
                    every.extend(By::OF_RELEASE.map(|by| WordCase::LeavesBy { place, nexus, by }));
                }
            }
            every.extend(After::every().into_iter().map(|after| WordCase::ServesAfter { after, place }));
            if place > 0 {
                every.extend([false, true].map(|evicts| WordCase::ComesTo { place, evicts }));
            }
            for bit in 0..u64::BITS as usize {
                every.extend(KINDS.map(|kind| WordCase::WrongBit { place, bit, kind }));
            }
        }
        every.extend((NEXUSES + 1 - PLACES..=NEXUSES).map(WordCase::ServedFromPlaceZero));
        every.extend(places_above_4().map(WordCase::PlaceAbove4));
        every.extend([0, 1, 13].into_iter().flat_map(every_of_ignored));
        every.extend(told::every());
        every.extend(stays::every());
        every.extend(due::every());
        for words in WrongWords::every() {
            every.extend(KINDS.map(|kind| WordCase::Wrong { words, kind }));
        }
        let others = Clause::EVERY.into_iter().filter(|&clause| clause != Clause::WordsAsTheScopesSay);
        every.extend(others.map(WordCase::BesideClause));
        every
    }

    /// The group it is counted in.
    pub fn group(self) -> &'static str {
        match self {
            WordCase::Serves { .. } => "whom sets serve",
            WordCase::Served { .. } => "nexuses served and not served, by place",
            WordCase::ServedFromPlaceZero(_) => "counts of nexuses served from place 0",
            WordCase::ServesAfter { .. } => "places asked about after each call",
            WordCase::PlaceAbove4(_) => "places above 4 asked about",
            WordCase::OneBeforeThirteen => "places above 4 of a record that isn't well formed",
            WordCase::Ignores { .. } => "places asked about with bytes in ignored fields",
            WordCase::AskedWith { .. } => "places asked about with each value of an ignored byte",
            WordCase::AskedInNameOf { .. } => {
                "places asked about in the name of each nexus, by mark and flags"
            }
            WordCase::Moves { .. } => "bits of nexuses that move, by place",
            WordCase::ComesTo { .. } => "bits that come to a LOCAL place's word",
            WordCase::LeavesBy { .. } => "bits that leave a LOCAL place's word, by call",
            WordCase::Told { .. } => "what nexuses are told of, by call",
            WordCase::NexusTold { .. } => "nexuses told of a change, by call",
            WordCase::NotTold { .. } => "nexuses not told of a change, by call",
            WordCase::NotToldOfOther { .. } => "nexuses not told of another place's number, by call",
            WordCase::ChangedFor { .. } => "nexuses whose place changes, by call and mark",
            WordCase::BitStays { .. } => "bits that stay in their word, by kind of call",
            WordCase::WrongBit { .. } => "records with one wrong bit, by kind of call",
            WordCase::Wrong { .. } => "records with wrong words, by kind of call",
            WordCase::KeptByReleased { .. } => "records that keep a released nexus's bit",
            WordCase::OneBefore { .. } => "records with wrong words, by the answer that is due too",
            WordCase::WrongInNameOf { .. } => "records with wrong words met by each nexus, by mark and flags",
            WordCase::BesideClause(_) => "clauses broken beside wrong words",
        }
    }

    /// Whether it is one of all the values of something, which are the directed sessions' task.
    pub fn is_one_of_all_values(self) -> bool {
        !matches!(self, WordCase::Serves { .. } | WordCase::OneBeforeThirteen)
    }
}

/// The last call that wasn't kind 13.
#[derive(Default)]
pub struct WordHistory {
    after: Option<After>,
}

impl WordHistory {
    /// The cases that a call comes to, over the record before it. Then the call is history.
    pub fn follow(
        &mut self,
        command: &Command,
        before: &Record,
        reply: &Reply,
        account: &Account,
    ) -> Vec<WordCase> {
        let mut cases = of_wrong_words(command, before, reply);
        cases.extend(stays::of(command, before, reply, account));
        if command.kind == kind::SERVES {
            cases.extend(self.of_serves(command, reply));
            cases.extend(of_ignored(command, before, reply.number));
            return cases;
        }
        cases.extend(of_moves(command, before, account));
        cases.extend(told::of(command, account));
        self.after = After::of(command, before, reply, account);
        cases
    }

    /// The cases of kind 13.
    fn of_serves(&self, command: &Command, reply: &Reply) -> Vec<WordCase> {
        let place = command.argument;
        let mut cases = Vec::new();
        match (reply.number, reply.served()) {
            (0, Some(word)) => {
                let place = usize::from(place);
                cases.push(WordCase::Serves { place, nobody: word == 0 });
                cases.extend((0..NEXUSES).map(|nexus| {
                    let is_served = word & bit(nexus) != 0;
                    WordCase::Served { place, nexus, is_served }
                }));
                if place == 0 {
                    cases.push(WordCase::ServedFromPlaceZero(word.count_ones() as usize));
                }
                cases.extend(self.after.map(|after| WordCase::ServesAfter { after, place }));
            }
            (1, _) if usize::from(place) >= PLACES => cases.push(WordCase::OneBeforeThirteen),
            (13, _) => cases.push(WordCase::PlaceAbove4(place)),
            _ => {}
        }
        cases
    }
}

/// Every case of the fields that kind 13 ignores, with one answer.
fn every_of_ignored(number: u8) -> Vec<WordCase> {
    let mut every: Vec<WordCase> =
        Ignored::EVERY.map(|ignored| WordCase::Ignores { ignored, number }).to_vec();
    for byte in IgnoredByte::EVERY {
        every.extend((0..=255).map(|value| WordCase::AskedWith { byte, value, number }));
    }
    for standing in Standing::EVERY {
        every.extend((0..NEXUSES).map(|nexus| WordCase::AskedInNameOf { nexus, standing, number }));
    }
    every
}

/// The cases of the fields that kind 13 ignores.
fn of_ignored(command: &Command, before: &Record, number: u8) -> Vec<WordCase> {
    let ignored = Ignored::EVERY.into_iter().filter(|ignored| ignored.is_in(command, before));
    let mut cases: Vec<WordCase> = ignored.map(|ignored| WordCase::Ignores { ignored, number }).collect();
    let bytes = IgnoredByte::EVERY.into_iter();
    cases.extend(bytes.map(|byte| WordCase::AskedWith { byte, value: byte.of(command), number }));
    let nexus = usize::from(command.nexus);
    if let Some(standing) = before.nexuses.get(nexus).map(Standing::of) {
        cases.push(WordCase::AskedInNameOf { nexus, standing, number });
    }
    cases
}

/// Bits that move from word to word.
fn of_moves(command: &Command, before: &Record, account: &Account) -> Vec<WordCase> {
    let mut cases = Vec::new();
    for step in &account.steps {
        let (Some(nexus), Some(place)) = (step.nexus, step.place) else { continue };
        match step.rule {
            Rule::BitMovesToLocalPlace => {
                let evicts = account.tells(Rule::LocalTakesPlaceOfUnlockedOwner);
                cases.push(WordCase::ComesTo { place, evicts });
                cases.push(WordCase::Moves { place, nexus, comes: true });
            }
            Rule::BitMovesToPlaceZero => {
                let place = before.selected_place(nexus);
                cases.extend(By::of(command).map(|by| WordCase::LeavesBy { place, nexus, by }));
                cases.push(WordCase::Moves { place, nexus, comes: false });
            }
            _ => {}
        }
    }
    cases
}

/// A record with wrong words that a call meets, as the call's answer shows: 1, or 0 of power-on, or 0 of a batch each of whose
/// events is answered 1.
fn of_wrong_words(command: &Command, before: &Record, reply: &Reply) -> Vec<WordCase> {
    let right = before.words_by_scopes();
    if before.selection_words == right || !KINDS.contains(&command.kind) {
        return Vec::new();
    }
    let shows = match command.kind {
        kind::POWER_ON => reply.number == 0,
        kind::BATCH => reply.number == 0 && command.batch().is_some_and(|batch| has_no_power_on(&batch)),
        _ => reply.number == 1,
    };
    if !shows {
        return Vec::new();
    }
    let mut other_clauses = broken_clauses(before);
    other_clauses.retain(|&clause| clause != Clause::WordsAsTheScopesSay);
    if !other_clauses.is_empty() {
        return other_clauses.into_iter().map(WordCase::BesideClause).collect();
    }
    let mut cases = wrong::cases(before, &right, command.kind);
    if reply.number == 1 {
        cases.extend(due::cases(command, before, &right));
    }
    cases
}

/// Whether a batch has events, and none of them is power-on.
fn has_no_power_on(batch: &Batch) -> bool {
    let events: Vec<Event> = batch.recording().events;
    !events.is_empty() && events.iter().all(|event| event.kind != kind::POWER_ON)
}

impl fmt::Display for WordCase {
    fn fmt(&self, formatter: &mut fmt::Formatter) -> fmt::Result {
        match self {
            WordCase::Serves { place, nobody } => {
                write!(formatter, "place {place} {}", if *nobody { "nobody" } else { "somebody" })
            }
            WordCase::Served { place, nexus, is_served } => {
                let is_served = if *is_served { "" } else { "not " };
                write!(formatter, "nexus {nexus} {is_served}from place {place}")
            }
            WordCase::ServedFromPlaceZero(number) => write!(formatter, "{number}"),
            WordCase::ServesAfter { after, place } => write!(formatter, "place {place} after {after:?}"),
            WordCase::PlaceAbove4(place) => write!(formatter, "{place}"),
            WordCase::OneBeforeThirteen => formatter.write_str("1"),
            WordCase::Ignores { ignored, number } => write!(formatter, "{ignored:?}, answer {number}"),
            WordCase::AskedWith { byte, value, number } => {
                write!(formatter, "{byte:?} {value}, answer {number}")
            }
            WordCase::AskedInNameOf { nexus, standing, number } => {
                write!(formatter, "nexus {nexus}, {standing:?}, answer {number}")
            }
            WordCase::Moves { place, nexus, comes } => {
                let way = if *comes { "to" } else { "from" };
                write!(formatter, "nexus {nexus} {way} place {place}")
            }
            WordCase::ComesTo { place, evicts } => write!(formatter, "place {place}, evicts {evicts}"),
            WordCase::LeavesBy { place, nexus, by } => {
                write!(formatter, "nexus {nexus} from place {place} by {by:?}")
            }
            WordCase::Told { by, how } => write!(formatter, "by {by:?}: {how:?}"),
            WordCase::NexusTold { by, nexus } => write!(formatter, "nexus {nexus} by {by:?}"),
            WordCase::NotTold { by, why } => write!(formatter, "by {by:?}: {why:?}"),
            WordCase::NotToldOfOther { by, nexus, place, other } => {
                write!(formatter, "nexus {nexus} in place {place} of place {other} by {by:?}")
            }
            WordCase::ChangedFor { by, nexus, place, registered } => {
                write!(formatter, "nexus {nexus} in place {place} by {by:?}, registered {registered}")
            }
            WordCase::BitStays { kind, nexus, place } => {
                write!(formatter, "nexus {nexus} in place {place} by {}", kind_name(*kind))
            }
            WordCase::WrongBit { place, bit, kind } => {
                write!(formatter, "bit {bit} of place {place} met by {}", kind_name(*kind))
            }
            WordCase::Wrong { words, kind } => write!(formatter, "{words:?} met by {}", kind_name(*kind)),
            WordCase::KeptByReleased { place, nexus } => write!(formatter, "nexus {nexus} in place {place}"),
            WordCase::OneBefore { kind, number } => write!(formatter, "{} {number}", kind_name(*kind)),
            WordCase::WrongInNameOf { kind, nexus, standing } => {
                write!(formatter, "nexus {nexus}, {standing:?}, met by {}", kind_name(*kind))
            }
            WordCase::BesideClause(clause) => write!(formatter, "{clause:?}"),
        }
    }
}
