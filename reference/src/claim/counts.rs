//! 02, request 11: the rows and columns in which writes are counted.

use crate::calls::{Written, WrittenAs};
use crate::names::WRITTEN;
use crate::sizes::NEXUSES;
use std::ops::{Index, IndexMut};

/// 02, request 11: "the writes encrypted, external, clear and refused", in this order.
#[derive(Clone, Copy, PartialEq, Eq, PartialOrd, Ord, Debug)]
pub enum Column {
    Encrypted,
    External,
    Clear,
    Refused,
}

impl Column {
    pub const EVERY: [Column; 4] = [Column::Encrypted, Column::External, Column::Clear, Column::Refused];

    /// The column of a write, by what became of it; nothing did where it was refused.
    pub fn of(written: Option<Written>) -> Column {
        match written.map(|written| written.as_what) {
            Some(WrittenAs::Encrypted) => Column::Encrypted,
            Some(WrittenAs::External) => Column::External,
            Some(WrittenAs::Clear) => Column::Clear,
            None => Column::Refused,
        }
    }

    /// Its word.
    pub fn name(self) -> &'static str {
        let [clear, external, encrypted] = WRITTEN;
        match self {
            Column::Encrypted => encrypted,
            Column::External => external,
            Column::Clear => clear,
            Column::Refused => "refused",
        }
    }
}

/// 02, request 11: "those with a nexus above 15 have a seventeenth row".
pub const ROW_ABOVE_15: usize = NEXUSES;
/// The rows: one for each nexus, and that one.
pub const ROWS: usize = NEXUSES + 1;

/// The row of a nexus.
pub fn row_of(nexus: u8) -> usize {
    usize::from(nexus).min(ROW_ABOVE_15)
}

/// So many writes in each column, in their order.
#[derive(Clone, Copy, PartialEq, Eq, Default, Debug)]
pub struct Counts(pub [u64; Column::EVERY.len()]);

impl Counts {
    /// The writes of all columns.
    pub fn writes(&self) -> u64 {
        self.0.iter().sum()
    }
}

impl Index<Column> for Counts {
    type Output = u64;

    fn index(&self, column: Column) -> &u64 {
        &self.0[column as usize]
    }
}

impl IndexMut<Column> for Counts {
    fn index_mut(&mut self, column: Column) -> &mut u64 {
        &mut self.0[column as usize]
    }
}

/// The counts of every row.
pub type Rows = [Counts; ROWS];

/// Where a write is counted: its row and its column.
pub type Cell = (usize, Column);

/// The rows of some writes: "Every write event is counted once".
pub fn count(writes: impl IntoIterator<Item = Cell>) -> Rows {
    let mut rows = [Counts::default(); ROWS];
    for (row, column) in writes {
        rows[row][column] += 1;
    }
    rows
}

/// The rows added up, column by column.
pub fn total(rows: &Rows) -> Counts {
    Counts(Column::EVERY.map(|column| rows.iter().map(|row| row[column]).sum()))
}
