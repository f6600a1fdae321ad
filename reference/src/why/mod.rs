//! 02, request 8: "Why was this write stopped?": a plain reason for a nexus's next write, at a number of events.
//!
//! - `reason`: what a reason tells.
//! - `lines`: the two lines of a reason, and the lines for many of them.
//! - `history`: the reason itself, from what the calls before the write did. No instance number is looked at: what a call
//!   acted on is told by the call.
//! - `asked`: what a program is asked by its arguments.

mod asked;
mod history;
mod lines;
mod reason;

pub use asked::Asked;
pub use history::{Done, History, Question, Refusal, Tried};
pub use reason::{Deed, Flag, InUse, Reason, Touch};
