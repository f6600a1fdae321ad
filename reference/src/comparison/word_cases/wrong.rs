//! Records that are well formed but for their words.

use super::WordCase;
use crate::codes::scope;
use crate::record::Record;
use crate::selection_words::{bit, nexuses_of, AT_POWER_ON};
use crate::sizes::{NEXUSES, PLACES};

/// The words of all places.
pub type Words = [u64; PLACES];

/// A way in which words differ from what the scopes say, in more than one bit.
#[derive(Clone, Copy, PartialEq, Eq, PartialOrd, Ord, Debug)]
pub enum WrongWords {
    /// Two places' words exchanged.
    Swapped(usize, usize),
    /// One nexus's bit in another place's word: there are 16 ones still.
    InAnotherWord {
        from: usize,
        to: usize,
    },
    ZerosInPlaceZero,
    AllZeros,
    AllOnes,
    /// 16 ones for place 0 and zeros elsewhere though places 1 to 4 are used.
    PowerOns,
    /// 16 ones for place 0, and the LOCAL nexuses in their own words too.
    LocalInPlaceZeroToo,
    /// Of place 0's nexuses the ALL nexus alone.
    PublicLeftOut,
    /// Ones above bit 15 of place 0's word.
    OnesAbove15,
    OtherByteOrder,
    /// Bit n + 1 for nexus n.
    ShiftedByOne,
    /// Ones for those that don't select the place.
    Complement,
}

impl WrongWords {
    /// Every way.
    pub fn every() -> Vec<WrongWords> {
        let mut every = vec![
            WrongWords::ZerosInPlaceZero,
            WrongWords::AllZeros,
            WrongWords::AllOnes,
            WrongWords::PowerOns,
            WrongWords::LocalInPlaceZeroToo,
            WrongWords::PublicLeftOut,
            WrongWords::OnesAbove15,
            WrongWords::OtherByteOrder,
            WrongWords::ShiftedByOne,
            WrongWords::Complement,
        ];
        for one in 0..PLACES {
            every.extend((one + 1..PLACES).map(|other| WrongWords::Swapped(one, other)));
            let others = (0..PLACES).filter(|&other| other != one);
            every.extend(others.map(|to| WrongWords::InAnotherWord { from: one, to }));
        }
        every
    }

    /// The words of a record made wrong so. In `InAnotherWord` it is the bit of the nexus that is served from the place, of
    /// several the one in turn. Nothing where fewer than two bits come out wrong.
    pub fn made(self, record: &Record, turn: usize) -> Option<Words> {
        let right = record.words_by_scopes();
        let mut words = right;
        match self {
            WrongWords::Swapped(one, other) => words.swap(one, other),
            WrongWords::InAnotherWord { from, to } => {
                let served = nexuses_of(right[from]);
                let nexus = *served.get(turn % served.len().max(1))?;
                words[from] &= !bit(nexus);
                words[to] |= bit(nexus);
            }
            WrongWords::ZerosInPlaceZero => words[0] = 0,
            WrongWords::AllZeros => words = [0; PLACES],
            WrongWords::AllOnes => words = [u64::MAX; PLACES],
            WrongWords::PowerOns => words = AT_POWER_ON,
            WrongWords::LocalInPlaceZeroToo => words[0] = AT_POWER_ON[0],
            WrongWords::PublicLeftOut => {
                let all = record.nexuses.iter().position(|nexus| nexus.scope == scope::ALL)?;
                words[0] = bit(all);
            }
            WrongWords::OnesAbove15 => words[0] |= u64::MAX << NEXUSES,
            WrongWords::OtherByteOrder => words = words.map(u64::swap_bytes),
            WrongWords::ShiftedByOne => words = words.map(|word| word << 1),
            WrongWords::Complement => words = words.map(|word| !word),
        }
        (wrong_bits(&words, &right).len() > 1).then_some(words)
    }
}

/// The bits in which words differ from the right ones, by place.
fn wrong_bits(words: &Words, right: &Words) -> Vec<(usize, usize)> {
    let of_place =
        |place: usize| nexuses_of(words[place] ^ right[place]).into_iter().map(move |at| (place, at));
    (0..PLACES).flat_map(of_place).collect()
}

/// The cases of a record that is well formed but for its words, met by a kind of call.
pub fn cases(record: &Record, right: &Words, kind: u8) -> Vec<WordCase> {
    let words = &record.selection_words;
    if let [(place, bit)] = wrong_bits(words, right)[..] {
        return vec![WordCase::WrongBit { place, bit, kind }];
    }
    let is_made = |way: &WrongWords| match way {
        WrongWords::InAnotherWord { .. } => {
            (0..NEXUSES).any(|turn| way.made(record, turn).as_ref() == Some(words))
        }
        _ => way.made(record, 0).as_ref() == Some(words),
    };
    let ways: Vec<WrongWords> = WrongWords::every().into_iter().filter(is_made).collect();
    let mut cases: Vec<WordCase> = ways.iter().map(|&words| WordCase::Wrong { words, kind }).collect();
    for way in ways {
        if let WrongWords::InAnotherWord { from: 0, to: place } = way {
            let nexuses = nexuses_of(words[place] & !right[place]);
            cases.extend(nexuses.into_iter().map(|nexus| WordCase::KeptByReleased { place, nexus }));
        }
    }
    cases
}
