//! 02, request 12: "Salvage of a damaged recording": a new file of the events that replay would take.
//!
//! - `damaged`: what a file holds by its stored page offset, or why it can't be salvaged (21).
//! - `salvaged`: the run of events that is kept, the new file, and what is reported of it.
//! - `lines`: the report's five lines.

mod damaged;
mod lines;
mod salvaged;

pub use damaged::{causes, Cause, Damaged, UNSALVAGEABLE};
pub use salvaged::{salvage, Report, Salvaged};
