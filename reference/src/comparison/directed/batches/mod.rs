//! Batches of events (02, request 5).

mod counts;
mod days;
mod kinds;
mod limits;
mod one_by_one;
mod pages;
mod part_events;
mod records;
mod refusals;
mod sessions;
mod wrong_events;

pub use days::{day, every_kind as every_kind_of_event};
pub use one_by_one::self_check;

use crate::comparison::session::Sink;

pub fn sessions(sink: &mut Sink) {
    counts::sessions(sink);
    part_events::sessions(sink);
    refusals::sessions(sink);
    pages::sessions(sink);
    limits::sessions(sink);
    records::sessions(sink);
    kinds::sessions(sink);
}

/// Batches beside the same calls one by one, and other sessions in batches. They are long: what a shorter session shows
/// is to be found there.
pub fn long_sessions(sink: &mut Sink) {
    one_by_one::sessions(sink);
    sessions::sessions(sink);
}
