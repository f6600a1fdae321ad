//! 02, request 3: "Replay of a recorded session", in three parts, and request 5: "Several events in one call".
//!
//! - `file`: the layout. Requests 8 (why a write was stopped), 11 (the claim) and 12 (salvage) read the same file, and
//!   request 5 the same events.
//! - `sound`: which files and which events are refused with 22. Request 5 asks it of its events, request 12 of one
//!   event after another.
//! - `run`: the events in order through the calls of 01 and 02. Request 8 asks at a number of events, request 11 at
//!   each write.
//! - `batch`: request 5, by the same layout of events, the same rules of them and the same run.

pub mod batch;
pub mod file;
pub mod run;
pub mod sound;

pub use batch::{Batch, BatchOutcome, BatchRule, BatchVerdict, BrokenByBatch, BATCH_EVENTS};
pub use file::{events_end, parts, whole_events, Event, Header, Recording};
pub use file::{EVENT_BYTES, HEADER_BYTES, LONGEST, MOST_EVENTS};
pub use run::{answer_bytes, replay, run, run_on, Moment, Replayed, Verdict, ANSWER_BYTES};
pub use sound::{broken, broken_by_events, broken_rules, event_rules, fields_of};
pub use sound::{Broken, Field, Fields, FileRule, Part};
