//! Directed sessions: each file holds the sessions of one idea.

mod batches;
mod buffers;
mod byte_values;
mod ceem;
mod descriptors;
mod events;
mod examples;
mod faulty_bytes;
mod kinds;
mod local_places;
mod page_rules;
mod pending;
mod places;
mod read_checks;
mod reads;
mod records;
mod restoring;
mod selection_words;
mod status;
mod writes;

pub use batches::self_check;

use super::session::Sink;

/// P1 to P10 of 01.
pub fn examples(sink: &mut Sink) {
    examples::sessions(sink);
}

/// Every directed session.
pub fn sessions(sink: &mut Sink) {
    faulty_bytes::sessions(sink);
    sessions_for_recordings(sink);
    local_places::sessions(sink);
    selection_words::sessions(sink);
}

/// The directed sessions of which recordings are made too.
pub fn sessions_for_recordings(sink: &mut Sink) {
    examples::sessions(sink);
    kinds::sessions(sink);
    batches::sessions(sink);
    buffers::sessions(sink);
    writes::sessions(sink);
    reads::sessions(sink);
    read_checks::sessions(sink);
    restoring::sessions(sink);
    pending::sessions(sink);
    places::sessions(sink);
    events::sessions(sink);
    descriptors::sessions(sink);
    byte_values::sessions(sink);
    status::sessions(sink);
    records::sessions(sink);
    page_rules::sessions(sink);
    ceem::sessions(sink);
    batches::long_sessions(sink);
}
