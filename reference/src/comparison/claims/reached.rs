//! What the recordings and rates came to, counted: a run that never came to something on the list fails.

use super::case::Case;
use super::rates::{RateKind, LONG_RATE};
use super::writes::{Around, Watch};
use crate::claim::second_account::claim;
use crate::claim::{Claim, Column, Rate, ROWS, ROW_ABOVE_15};
use crate::codes::encryption;
use crate::comparison::recordings::case::Group;
use crate::comparison::recordings::counts::{Counts, Titled};
use crate::comparison::recordings::course::Reaches;
use crate::comparison::recordings::reached::Reached as Recordings;
use crate::recording::{broken_rules, events_end, FileRule, EVENT_BYTES, LONGEST, MOST_EVENTS};
use crate::sizes::PLACES;
use crate::stream::kind;

/// The counts that are asked for: the last and the first of each number of digits.
pub const COUNTS: [u64; 6] = [9, 10, 99, 100, 999, 1000];
/// The bytes of the longest text: 64 counts of three digits, one of four in row 16, as more don't fit a recording, four
/// totals of four digits and an amount of ten.
const LONGEST_TEXT: usize = 10 * 18 + 6 * 19 + 14 + 44;
/// The numbers of bits that an amount is to pass.
const BITS: [u32; 3] = [16, 31, 32];

/// The most writes of a column in one recording. Encrypted and external ones need a page, of 52 and of 20 bytes, and an
/// event that sends it.
pub fn most_writes(column: Column) -> u64 {
    let after_page = |bytes: usize| (LONGEST - events_end(1) - bytes) / EVENT_BYTES;
    (match column {
        Column::Encrypted => after_page(52),
        Column::External => after_page(20),
        Column::Clear | Column::Refused => MOST_EVENTS,
    }) as u64
}

/// Something to come to.
#[derive(Clone, Copy, PartialEq, Eq, PartialOrd, Ord, Debug)]
pub enum Item {
    /// A write in a row and a column.
    Cell(usize, Column),
    /// A write of a nexus above 15.
    Above15(u8),
    /// An answer of a write, with its column.
    Answer(u8, Column),
    /// A write decided by an encryption mode and a support flag.
    Decided {
        encryption: u8,
        supported: bool,
    },
    /// A write of a column that isn't refused, by the place of its set.
    FromPlace(usize, Column),
    /// A write of a column before, between or after power-on events.
    PowerOn(Around, Column),
    /// 11 for a locked nexus whose set a call of this kind touched.
    LockedAndTouched(u8),
    /// A write that passes just after a call of this kind, before which its nexus was locked.
    LockedAndPassed(u8),
    /// A row with every column in one recording.
    RowOfEveryColumn(usize),
    /// A count in a row.
    InRow(Column, u64),
    /// A count in the totals of several rows.
    InTotal(Column, u64),
    MostWrites(Column),
    LongestText,
    NoEvents,
    NoWrites,
    /// The same nexus's encrypted writes before and after a power-on.
    TwoSessions,
    /// A rate with encrypted writes.
    Rate(&'static str),
    /// A rate of a thousand digits.
    LongRate(RateKind),
    /// A rate with a wrong file.
    RateOfWrongFile(&'static str),
    /// An amount above two to the power of so many.
    AmountAbove(u32),
    AmountOfDigits(usize),
    /// An amount of 0 for encrypted writes, by the rate; and for none of them, at a rate.
    NoAmountByRate,
    NoAmountByWrites,
    /// A rule that a file breaks alone, with a rate.
    Broken(FileRule, RateKind),
}

/// Everything a run has to come to, by groups.
fn wanted() -> Vec<Titled<Item>> {
    [wanted_of_writes(), wanted_of_claims()].concat()
}

/// What writes have to come to.
fn wanted_of_writes() -> Vec<Titled<Item>> {
    let cells = (0..ROW_ABOVE_15).flat_map(|row| Column::EVERY.map(|column| Item::Cell(row, column)));
    let done = PASSING.map(|column| Item::Answer(0, column));
    let refused = [2, 3, 4, 11, 12].map(|number| Item::Answer(number, Column::Refused));
    let modes = (encryption::DISABLE..=encryption::ENCRYPT)
        .flat_map(|encryption| [false, true].map(|supported| Item::Decided { encryption, supported }));
    let places = (0..PLACES).flat_map(|place| PASSING.map(|column| Item::FromPlace(place, column)));
    let around =
        Around::EVERY.into_iter().flat_map(|around| Column::EVERY.map(|it| Item::PowerOn(around, it)));
    let kinds = kind::POWER_ON..=kind::READ;
    vec![
        ("rows and columns", cells.chain([Item::Cell(ROW_ABOVE_15, Column::Refused)]).collect()),
        ("nexuses above 15", (16..=255).map(Item::Above15).collect()),
        ("answers of writes", done.into_iter().chain(refused).collect()),
        ("modes and support", modes.collect()),
        ("places and columns", places.collect()),
        ("writes around power-on", around.collect()),
        ("locked, the set touched by", TOUCHING.map(Item::LockedAndTouched).to_vec()),
        ("locked, a write that passes after", kinds.map(Item::LockedAndPassed).collect()),
    ]
}

/// What claims have to come to.
fn wanted_of_claims() -> Vec<Titled<Item>> {
    let counts = |item: fn(Column, u64) -> Item| {
        Column::EVERY.into_iter().flat_map(|column| COUNTS.map(|count| item(column, count))).collect()
    };
    let most = Column::EVERY.map(Item::MostWrites).into_iter().chain([Item::LongestText]);
    let rates = |item: fn(&'static str) -> Item| {
        RateKind::EVERY.into_iter().flat_map(RateKind::rates).map(|rate| item(rate)).collect()
    };
    let amounts = BITS.map(Item::AmountAbove).into_iter().chain((1..=10).map(Item::AmountOfDigits));
    let broken =
        FileRule::EVERY.into_iter().flat_map(|rule| RateKind::EVERY.map(|kind| Item::Broken(rule, kind)));
    vec![
        ("rows of every column", (0..ROW_ABOVE_15).map(Item::RowOfEveryColumn).collect()),
        ("counts in a row", counts(Item::InRow)),
        ("counts in the total of several rows", counts(Item::InTotal)),
        ("the most writes, the longest text", most.collect()),
        ("sessions", vec![Item::NoEvents, Item::NoWrites, Item::TwoSessions]),
        ("rates with encrypted writes", rates(Item::Rate)),
        ("long rates with encrypted writes", RateKind::EVERY.map(Item::LongRate).to_vec()),
        ("rates with a wrong file", rates(Item::RateOfWrongFile)),
        ("amounts", amounts.chain([Item::NoAmountByRate, Item::NoAmountByWrites]).collect()),
        ("rules of the file broken alone, by rate", broken.collect()),
    ]
}

/// The columns of writes that aren't refused.
const PASSING: [Column; 3] = [Column::Encrypted, Column::External, Column::Clear];

/// The kinds of call that can change a locked nexus's set so that its writes are answered 11.
const TOUCHING: [u8; 7] = [
    kind::OUT,
    kind::DEMOUNT,
    kind::NEXUS_RESERVATION_LOSS,
    kind::DEVICE_RESERVATION_LOSS,
    kind::PREEMPT,
    kind::MICROCODE,
    kind::VENDOR_RELEASE,
];

/// The counts: those of the recordings, whatever is claimed, and those of the claims.
#[derive(Default)]
pub struct Reached {
    recordings: Recordings,
    counts: Counts<Item>,
    refused_with_23: u64,
    without_number: u64,
}

impl Reaches for Reached {
    type Case = Case;

    fn count(&mut self, case: &Case) {
        let mut watch = Watch::default();
        self.recordings.count_showing(&case.recording, &mut |moment| watch.see(moment));
        let rate = Rate::read(&case.rate);
        let pence = if let Some(Rate::Pence(pence)) = rate { pence } else { 0 };
        match claim(&case.recording.file, Rate::Pence(pence)) {
            Ok(claim) => {
                self.count_claim(&claim, watch.events());
                self.counts.add_all(watch.items());
                self.count_rate(case, rate, &claim);
            }
            Err(_) => self.count_wrong(case),
        }
    }

    fn recordings(&self) -> u64 {
        self.recordings.recordings()
    }

    fn text(&self) -> String {
        let mut text = self.recordings.text_of(&groups());
        text += &format!("sound recordings refused with 23: {}, ", self.refused_with_23);
        text += &format!("at a rate that is no number: {}\n", self.without_number);
        text + &self.counts.text(&wanted())
    }

    fn missing_text(&self, random: bool) -> String {
        self.recordings.missing_text_of(&groups(), random) + &self.counts.missing_text(&wanted())
    }
}

/// The groups of recordings that are asked for.
fn groups() -> Vec<(Group, usize)> {
    [&Group::EVERY[..], &Group::OF_CLAIMS].concat()
}

impl Reached {
    /// Counts what the rows and totals of a sound recording of so many events hold.
    fn count_claim(&mut self, claim: &Claim, events: usize) {
        let totals = claim.totals;
        for column in Column::EVERY {
            let in_rows = claim.rows.map(|row| row[column]);
            let in_row = COUNTS.into_iter().filter(|count| in_rows.contains(count));
            self.counts.add_all(in_row.map(|count| Item::InRow(column, count)));
            let several = in_rows.iter().filter(|&&count| count > 0).count() > 1;
            if several && COUNTS.contains(&totals[column]) {
                self.counts.add(Item::InTotal(column, totals[column]));
            }
            if totals[column] == most_writes(column) {
                self.counts.add(Item::MostWrites(column));
            }
        }
        let full = |row: &usize| Column::EVERY.into_iter().all(|column| claim.rows[*row][column] > 0);
        self.counts.add_all((0..ROWS).filter(full).map(Item::RowOfEveryColumn));
        if totals.writes() == 0 {
            self.counts.add(if events == 0 { Item::NoEvents } else { Item::NoWrites });
        }
    }

    /// Counts the rate of a sound recording, and the amount where it has one.
    fn count_rate(&mut self, case: &Case, rate: Option<Rate>, claim: &Claim) {
        let encrypted = claim.totals[Column::Encrypted] > 0;
        if encrypted {
            self.counts.add_all(asked_rate(&case.rate).map(Item::Rate));
            let is_long = case.rate.len() >= LONG_RATE;
            self.counts.add_all(is_long.then_some(Item::LongRate(RateKind::of(&case.rate))));
        }
        match rate {
            None => self.without_number += 1,
            Some(Rate::AboveLimit) => self.refused_with_23 += 1,
            Some(Rate::Pence(pence)) => {
                let amount = claim.amount;
                self.counts.add_all((claim.text().len() == LONGEST_TEXT).then_some(Item::LongestText));
                self.counts
                    .add_all(BITS.into_iter().filter(|bits| amount >> bits > 0).map(Item::AmountAbove));
                match (encrypted, pence > 0) {
                    (true, true) => self.counts.add(Item::AmountOfDigits(amount.to_string().len())),
                    (true, false) => self.counts.add(Item::NoAmountByRate),
                    (false, true) => self.counts.add(Item::NoAmountByWrites),
                    (false, false) => {}
                }
            }
        }
    }

    /// Counts the rule that a wrong file breaks alone, and the rate that goes with it.
    fn count_wrong(&mut self, case: &Case) {
        self.counts.add_all(asked_rate(&case.rate).map(Item::RateOfWrongFile));
        if let [rule] = broken_rules(&case.recording.file)[..] {
            self.counts.add(Item::Broken(rule, RateKind::of(&case.rate)));
        }
    }
}

/// The rate among those that are asked for.
fn asked_rate(rate: &str) -> Option<&'static str> {
    RateKind::of(rate).rates().iter().find(|asked| **asked == rate).copied()
}
