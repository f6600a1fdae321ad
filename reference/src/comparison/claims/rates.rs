//! The rates at which recordings are claimed, as texts.

use crate::claim::{Rate, LARGEST_RATE};
use crate::comparison::numbers::Numbers;

/// The digits of a rate that is long by any measure.
pub const LONG_RATE: usize = 1000;

/// What is made of a rate before the recording counts.
#[derive(Clone, Copy, PartialEq, Eq, PartialOrd, Ord, Debug)]
pub enum RateKind {
    Taken,
    AboveLimit,
    NoNumber,
}

impl RateKind {
    pub const EVERY: [RateKind; 3] = [RateKind::Taken, RateKind::AboveLimit, RateKind::NoNumber];

    /// The kind of a text.
    pub fn of(rate: &str) -> RateKind {
        match Rate::read(rate) {
            Some(Rate::Pence(_)) => RateKind::Taken,
            Some(Rate::AboveLimit) => RateKind::AboveLimit,
            None => RateKind::NoNumber,
        }
    }

    /// The texts of the kind that every run tries.
    pub fn rates(self) -> &'static [&'static str] {
        match self {
            RateKind::Taken => &TAKEN,
            RateKind::AboveLimit => &ABOVE_LIMIT,
            RateKind::NoNumber => &NO_NUMBER,
        }
    }
}

/// 0 to 1,000,000, some of them with zeros before them: more digits than any integer type holds.
const TAKEN: [&str; 20] = [
    "0",
    "1",
    "250",
    "999999",
    "1000000",
    "007",
    "9",
    "10",
    "255",
    "256",
    "32768",
    "65535",
    "65536",
    "65786",
    "100000",
    "00",
    "0000001000000",
    "00000000000000000000000000000000000000000000000000250",
    "0000000000",
    "524288",
];

/// Above 1,000,000: near it, and just past 2^31, 2^32, 2^63, 2^64 and 2^128, where a number of so many bits is small
/// again.
const ABOVE_LIMIT: [&str; 22] = [
    "1000001",
    "4294967296",
    "18446744073709551616",
    "1000002",
    "1000009",
    "1000010",
    "1048576",
    "2000000",
    "9999999",
    "10000000",
    "0001000001",
    "2147483648",
    "2147483898",
    "4294967295",
    "4294967546",
    "9223372036854775808",
    "18446744073709551615",
    "18446744073709551866",
    "99999999999999999999",
    "340282366920938463463374607431768211456",
    "340282366920938463463374607431768211706",
    "1000000000000000000000000000000000000000000000000000000000000000000000000000000000000000000000000000000",
];

/// Empty, with a sign, a space, a letter or another character; digits of other scripts.
const NO_NUMBER: [&str; 26] = [
    "",
    "+250",
    "-250",
    "-1",
    "-0",
    "+",
    "-",
    " ",
    " 250",
    "250 ",
    "2 50",
    "250\n",
    "x",
    "25x",
    "x25",
    "0x10",
    "1e3",
    "2.5",
    "1,000",
    "1_000",
    "1000001x",
    "1/",
    "1:",
    "25 x",
    "٢٥٠",
    "２５０",
];

/// A rate at random: mostly one that is taken.
pub fn random_rate(numbers: &mut Numbers) -> String {
    match numbers.below(20) {
        0..=9 => numbers.below(LARGEST_RATE as usize + 1).to_string(),
        10..=12 => numbers.pick(&TAKEN).to_string(),
        13 => format!("{:0width$}", numbers.below(LARGEST_RATE as usize + 1), width = numbers.below(40)),
        14 => (LARGEST_RATE as usize - 3 + numbers.below(7)).to_string(),
        15 => (LARGEST_RATE as usize + 1 + numbers.below(100_000_000)).to_string(),
        16 => numbers.pick(&ABOVE_LIMIT).to_string(),
        17 => (0..1 + numbers.below(40)).map(|_| char::from(b'0' + numbers.below(10) as u8)).collect(),
        18 => numbers.pick(&NO_NUMBER).to_string(),
        _ => with_a_wrong_character(numbers),
    }
}

/// Digits with one character among them that isn't one.
fn with_a_wrong_character(numbers: &mut Numbers) -> String {
    let mut text = numbers.below(LARGEST_RATE as usize).to_string();
    let wrong = numbers.pick(&[' ', '+', '-', '.', ',', '_', '/', ':', 'a', 'A', 'O', 'é', '\t', '\n', '٣']);
    text.insert(numbers.below(text.len() + 1), wrong);
    text
}
