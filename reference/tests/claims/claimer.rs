//! The parts of a claimer that the faults put together wrongly.

use crate::written::{printed, refused, refused_22};
use reference::claim::second_account::{cell, claim};
use reference::claim::{count, Cell, Claim, Rate};
use reference::comparison::claims::Given;
use reference::recording::{run, Moment, Recording};

/// The refusals of a rate, and of one that is no number.
pub fn refused_23() -> Given {
    refused("23 the rate is above 1,000,000 pence")
}

pub fn usage() -> Given {
    refused("usage: claim RATE")
}

/// The checks in order: a number, then 22, then 23.
pub fn checked(file: &[u8], rate: &str) -> Result<(Recording, u64), Given> {
    let rate = Rate::read(rate).ok_or_else(usage)?;
    let recording = Recording::read(file).ok_or_else(refused_22)?;
    match rate {
        Rate::Pence(pence) => Ok((recording, pence)),
        Rate::AboveLimit => Err(refused_23()),
    }
}

/// The cells of a recording, each event's by `place`.
pub fn cells(recording: &Recording, mut place: impl FnMut(&Moment) -> Vec<Cell>) -> Vec<Cell> {
    let mut cells = Vec::new();
    run(recording, |moment| cells.extend(place(moment)));
    cells
}

/// A claimer that counts each event by `place`.
pub fn placing(file: &[u8], rate: &str, place: impl FnMut(&Moment) -> Vec<Cell>) -> Given {
    match checked(file, rate) {
        Ok((recording, pence)) => printed(Claim::of(count(cells(&recording, place)), pence).text()),
        Err(given) => given,
    }
}

/// A claimer that counts each write once, in the cell that `place` makes of the right one.
pub fn moving(file: &[u8], rate: &str, place: impl Fn(&Moment, Cell) -> Cell) -> Given {
    placing(file, rate, |moment| cell(moment).map(|cell| place(moment, cell)).into_iter().collect())
}

/// A claimer that prints something else of the right claim, at the rate.
pub fn telling(file: &[u8], rate: &str, tell: impl Fn(Claim, u64) -> String) -> Given {
    match checked(file, rate) {
        Ok((recording, pence)) => {
            let cells = cells(&recording, |moment| cell(moment).into_iter().collect());
            printed(tell(Claim::of(count(cells), pence), pence))
        }
        Err(given) => given,
    }
}

/// A claimer that adds up wrongly.
pub fn adding(file: &[u8], rate: &str, add: impl Fn(&mut Claim, u64)) -> Given {
    telling(file, rate, |mut claim, pence| {
        add(&mut claim, pence);
        claim.text()
    })
}

/// The right claimer.
pub fn right(file: &[u8], rate: &str) -> Given {
    match Rate::read(rate).map(|rate| claim(file, rate)) {
        None => usage(),
        Some(Ok(claim)) => printed(claim.text()),
        Some(Err(refusal)) => refused(&format!("{} refused", refusal.number())),
    }
}

/// A claimer that reads the rate in another way before anything else.
pub fn with_rate(file: &[u8], rate: &str, read: impl Fn(&str) -> String) -> Given {
    right(file, &read(rate))
}
