//! Who uses which set (02, request 7): kind 13 after calls of each kind, who is told of a change, and records whose words
//! aren't what the scopes say.

mod asking;
mod batched;
mod beside_clauses;
mod changes_elsewhere;
mod each_nexus;
mod evictions;
mod fields;
mod ignored_bytes;
mod nothing_changes;
mod one_comes_first;
mod pages;
mod refusals;
mod releases;
mod seats;
mod standings;
mod told;
mod wrong_bits;
mod wrong_words;

use crate::comparison::batch_builder::BatchParts;
use crate::comparison::page_builder::SetPage;
use crate::comparison::session::{
    event, event_of, load_bytes, power_on, read, read_status, security_in, security_out, serves,
    vendor_release, write, Sink,
};
use crate::sizes::{NEXUSES, PLACES};
use crate::stream::{kind, Command};

pub fn sessions(sink: &mut Sink) {
    from_power_on(sink);
    batched::sessions(sink);
    fields::sessions(sink);
    ignored_bytes::sessions(sink);
    standings::sessions(sink);
    told::sessions(sink);
    changes_elsewhere::sessions(sink);
    nothing_changes::sessions(sink);
    wrong_bits::sessions(sink);
    wrong_words::sessions(sink);
    one_comes_first::sessions(sink);
    beside_clauses::sessions(sink);
}

/// The sessions in which calls alone bring about what the words are.
pub fn from_power_on(sink: &mut Sink) {
    pages::sessions(sink);
    evictions::sessions(sink);
    releases::sessions(sink);
    each_nexus::sessions(sink);
    refusals::sessions(sink);
}

/// A call of every kind, for a record that isn't well formed: all of them leave it as it is but power-on, which comes last
/// and gives a good one. They differ by the turn.
fn every_kind(turn: usize) -> Vec<Command> {
    let nexus = (turn % NEXUSES) as u8;
    let place = (turn % PLACES) as u16;
    let page = [SetPage::k(), SetPage::all(), SetPage::public(true), SetPage::k_unlocked()][turn % 4].bytes();
    let events =
        [write(nexus, true), event(kind::MICROCODE), security_out(nexus, page.clone()), write(16, true)];
    vec![
        security_in(nexus, 0x0020, 24),
        security_out(nexus, page),
        write(nexus, true),
        event(kind::LOGICAL_UNIT_RESET),
        event(kind::DEMOUNT),
        event_of(kind::NEXUS_RESERVATION_LOSS, nexus),
        event(kind::DEVICE_RESERVATION_LOSS),
        event_of(kind::PREEMPT, nexus),
        event(kind::MICROCODE),
        vendor_release(place),
        read(nexus, 0, 255),
        BatchParts::of(&events[turn % 2..]).command(),
        serves(place),
        serves((place + 1) % PLACES as u16),
        serves(5),
        read_status(vec![0; 24]),
        event(14),
        load_bytes(vec![0; 1317]),
        power_on(),
        serves(place),
    ]
}
