//! 02, request 11: the 18 lines of a claim. "Each line begins with its row number", then "a line of totals, then the
//! amount".

use super::{Claim, Column, Counts, ROWS};
use std::fmt::{self, Display, Formatter, Write};

/// The first word of the line of totals, and the word before the amount.
const TOTAL: &str = "total";
const AMOUNT: &str = " amount ";

impl Display for Counts {
    /// The four numbers with a space between them.
    fn fmt(&self, formatter: &mut Formatter) -> fmt::Result {
        formatter.write_str(&self.0.map(|count| count.to_string()).join(" "))
    }
}

impl Claim {
    /// The lines.
    pub fn text(&self) -> String {
        let mut text = String::new();
        for (row, counts) in self.rows.iter().enumerate() {
            let _ = writeln!(text, "{row} {counts}");
        }
        let _ = writeln!(text, "{TOTAL} {}{AMOUNT}{}", self.totals, self.amount);
        text
    }

    /// Reads the lines, each of which ends with a newline; what is wrong where they have another form.
    pub fn read(text: &str) -> Result<Claim, String> {
        let mut lines: Vec<&str> = text.split('\n').collect();
        if lines.pop() != Some("") || lines.len() != ROWS + 1 {
            return Err(format!("the claim is not {} lines that each end with a newline", ROWS + 1));
        }
        let mut rows = [Counts::default(); ROWS];
        for (row, line) in lines[..ROWS].iter().enumerate() {
            rows[row] = counts(&row.to_string(), line).ok_or_else(|| wrong(line, &row.to_string(), ""))?;
        }
        let last = lines[ROWS];
        let (totals, amount) = totals(last).ok_or_else(|| wrong(last, TOTAL, &format!("{AMOUNT}PENCE")))?;
        Ok(Claim { rows, totals, amount })
    }
}

/// What is wrong with a line: its first word, the counts and what follows them are to stand there.
fn wrong(line: &str, first: &str, rest: &str) -> String {
    let columns = Column::EVERY.map(|column| column.name().to_uppercase()).join(" ");
    format!("the claim's line `{line}` is not `{first} {columns}{rest}`")
}

/// The counts of a line after its first word.
fn counts(first: &str, line: &str) -> Option<Counts> {
    let numbers: Option<Vec<u64>> =
        line.strip_prefix(first)?.strip_prefix(' ')?.split(' ').map(number).collect();
    numbers?.try_into().ok().map(Counts)
}

/// The last line's counts and amount.
fn totals(line: &str) -> Option<(Counts, u64)> {
    let (line, amount) = line.split_once(AMOUNT)?;
    Some((counts(TOTAL, line)?, number(amount)?))
}

/// A number as the claim writes it: decimal digits, without zeros before it. None has more than 10 digits: the largest
/// is the amount of 8,190 writes at 1,000,000 pence.
fn number(word: &str) -> Option<u64> {
    let number: u64 = word.parse().ok().filter(|_| word.len() <= 10)?;
    (number.to_string() == word).then_some(number)
}
