//! 02, request 11: "a rate from 0 to 1,000,000 pence".

use crate::digits;

/// The highest rate, in pence.
pub const LARGEST_RATE: u64 = 1_000_000;

/// A rate as a claim is asked for it.
#[derive(Clone, Copy, PartialEq, Eq, Debug)]
pub enum Rate {
    /// 0 to 1,000,000.
    Pence(u64),
    /// "A higher rate", of any size.
    AboveLimit,
}

impl Rate {
    /// The rate that decimal digits tell, zeros before them included; nothing for a text that is no number.
    pub fn read(text: &str) -> Option<Rate> {
        let rate = digits::number(text, 10)?;
        Some(if rate <= LARGEST_RATE { Rate::Pence(rate) } else { Rate::AboveLimit })
    }
}
