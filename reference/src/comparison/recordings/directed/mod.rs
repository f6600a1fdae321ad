//! Directed recordings: each file holds those of one idea. Wrong things have a file each.

mod events;
mod header;
mod largest;
mod pages;
mod pairs;
mod sessions;
mod sound;

use super::case::Sink;

/// Every directed recording.
pub fn recordings(sink: &mut Sink) {
    sound::recordings(sink);
    header::recordings(sink);
    events::recordings(sink);
    pages::recordings(sink);
    pairs::recordings(sink);
    largest::recordings(sink);
    sessions::recordings(sink);
}
