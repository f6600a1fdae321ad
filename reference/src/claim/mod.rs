//! 02, request 11: "The claim, added up": the writes of a recorded session by nexus and outcome, and their amount.
//!
//! - `counts`: the rows and columns in which writes are counted.
//! - `rate`: the digits of a rate.
//! - `lines`: the 18 lines, written and read.
//! - `second_account`: the claim of a file by the library's own drive. The others decide nothing, and the report, which
//!   is about another drive's replies, uses them alone.

mod counts;
mod lines;
mod rate;
pub mod second_account;

pub use counts::{count, row_of, total, Cell, Column, Counts, Rows, ROWS, ROW_ABOVE_15};
pub use rate::{Rate, LARGEST_RATE};

/// What the lines of a claim say, right or wrong.
#[derive(Clone, PartialEq, Eq, Debug)]
pub struct Claim {
    pub rows: Rows,
    pub totals: Counts,
    /// In pence.
    pub amount: u64,
}

impl Claim {
    /// The claim of some rows at a rate in pence: "encrypted total times a rate". With 8,190 events the amount needs more
    /// than 32 bits.
    pub fn of(rows: Rows, rate: u64) -> Claim {
        let totals = total(&rows);
        Claim { rows, totals, amount: totals[Column::Encrypted] * rate }
    }
}
