//! Directed recordings: each file holds those of one idea; then those of the replay's comparison.

mod events;
mod headers;
mod largest;
mod lengths;
mod offsets;
mod pages;
mod runs;
mod spare_bytes;
mod tails;

use crate::comparison::page_builder::SetPage;
use crate::comparison::recordings;
use crate::comparison::recordings::builder::{recording_of, requests, wrong_event};
use crate::comparison::recordings::case::Sink;
use crate::comparison::session::{event, security_in, security_out, write};
use crate::recording::{Event, FileRule, Recording};
use crate::stream::kind;

/// Every directed recording.
pub fn recordings(sink: &mut Sink) {
    runs::recordings(sink);
    events::recordings(sink);
    pages::recordings(sink);
    spare_bytes::recordings(sink);
    headers::recordings(sink);
    tails::recordings(sink);
    lengths::recordings(sink);
    offsets::recordings(sink);
    largest::recordings(sink);
    recordings::directed().into_iter().for_each(sink);
}

/// Three pages one after another, each sent before something that comes of it.
fn three_pages() -> Recording {
    recording_of(&[
        security_out(3, SetPage::k().bytes()),
        write(3, true),
        security_in(5, 0x0020, 0),
        security_out(5, SetPage::public(true).bytes()),
        event(kind::DEMOUNT),
        security_out(6, SetPage::all().bytes()),
        write(5, false),
    ])
}

/// A demount, which is sound over any page bytes.
fn demount() -> Event {
    requests().events[0]
}

/// An event that is wrong over any page bytes.
fn wrong() -> Event {
    wrong_event(FileRule::Kind)
}
