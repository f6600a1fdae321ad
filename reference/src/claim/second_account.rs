//! 02, request 11: the claim of a file, each write of which is decided by the library's own drive; and what is refused.

use super::{count, row_of, Cell, Claim, Column, Rate};
use crate::recording::{run, Moment, Recording, Verdict};
use crate::stream::kind;

/// Why there is no claim: "nothing is printed".
#[derive(Clone, Copy, PartialEq, Eq, PartialOrd, Ord, Debug)]
pub enum Refusal {
    /// 02, request 3: "refuses the file whole with 22".
    WrongRecording,
    /// "A higher rate is refused with 23, after 22".
    RateAboveLimit,
}

impl Refusal {
    /// The refusal's number.
    pub fn number(self) -> u8 {
        match self {
            Refusal::WrongRecording => Verdict::WrongRecording.number(),
            Refusal::RateAboveLimit => 23,
        }
    }
}

/// The claim of a file at a rate. Writes before a power-on event count as any others.
pub fn claim(file: &[u8], rate: Rate) -> Result<Claim, Refusal> {
    let recording = Recording::read(file).ok_or(Refusal::WrongRecording)?;
    let Rate::Pence(rate) = rate else { return Err(Refusal::RateAboveLimit) };
    let mut writes = Vec::new();
    run(&recording, |moment| writes.extend(cell(moment)));
    Ok(Claim::of(count(writes), rate))
}

/// "in its own nexus's row": where an event is counted; nowhere if it is no write.
pub fn cell(moment: &Moment) -> Option<Cell> {
    let is_write = moment.event.kind == kind::WRITE;
    is_write.then(|| (row_of(moment.event.nexus), Column::of(moment.reply.written())))
}
