//! Each nexus in each place while the set of each other place changes, by every kind of call that can change it: a nexus whose
//! place and number stay isn't told. The same with nobody registered, when those whose place changes aren't told either.

use super::seats::{emptied, Seats};
use crate::comparison::page_builder::SetPage;
use crate::comparison::session::{event, event_of, load, security_out, vendor_release, Session, Sink};
use crate::record::Record;
use crate::sizes::PLACES;
use crate::stream::{kind, Command};

/// A call, and the record that it changes.
type Change = (Record, Command);

pub fn sessions(sink: &mut Sink) {
    for seats in Seats::every() {
        for registered in [true, false] {
            let record = seats.record(registered);
            session(by_owners(seats, &record), sink);
            session(by_a_newcomer(seats, &record), sink);
            session(by_events(seats, &record), sink);
            session(by_microcode(&record), sink);
        }
    }
}

/// Each call over its record.
fn session(changes: Vec<Change>, sink: &mut Sink) {
    let calls = changes.into_iter().flat_map(|(record, call)| [load(&record), call]);
    sink(Session { name: "changes of other places".to_string(), commands: calls.collect() });
}

/// The record with another number in place 0.
fn numbered(record: &Record, number: u32) -> Record {
    let mut numbered = record.clone();
    numbered.places[0].number = number;
    numbered
}

/// The pages of a LOCAL owner: PUBLIC, LOCAL in its own place, and ALL, also where place 0 is given the number that it had.
fn by_owners(seats: Seats, record: &Record) -> Vec<Change> {
    let mut changes = Vec::new();
    for place in 1..PLACES {
        for page in [SetPage::public(true), SetPage::k_unlocked(), SetPage::all()] {
            changes.push((record.clone(), security_out(seats.owner(place), page.bytes())));
        }
        // the owner's place draws first
        let same = numbered(record, record.counter + 2);
        changes.push((same, security_out(seats.owner(place), SetPage::all().bytes())));
    }
    changes
}

/// LOCAL pages of a nexus without a place, which come to each place where it is empty and where its owner alone has no lock, and
/// ALL.
fn by_a_newcomer(seats: Seats, record: &Record) -> Vec<Change> {
    let local = security_out(seats.newcomer(), SetPage::k().bytes());
    let mut changes = vec![(record.clone(), security_out(seats.newcomer(), SetPage::all().bytes()))];
    for place in 1..PLACES {
        changes.push((emptied(record, place), local.clone()));
        let mut locked = record.clone();
        for other in (1..PLACES).filter(|&other| other != place) {
            locked.nexuses[usize::from(seats.owner(other))].lock = true;
        }
        changes.push((locked, local.clone()));
    }
    changes
}

/// The record with every CK bit in the sets of some places.
fn releasable(record: &Record, is_releasable: impl Fn(usize) -> bool) -> Record {
    let mut releasable = record.clone();
    for place in (0..PLACES).filter(|&place| is_releasable(place)) {
        let set = &mut releasable.places[place];
        (set.ckod, set.ckorp, set.ckorl) = (true, true, true);
    }
    releasable
}

/// The events that release the set of one place alone, or of all but one.
fn by_events(seats: Seats, record: &Record) -> Vec<Change> {
    let preempt = event_of(kind::PREEMPT, seats.newcomer());
    let mut changes = Vec::new();
    for place in 0..PLACES {
        for record in [releasable(record, |at| at == place), releasable(record, |at| at != place)] {
            changes.extend([(record.clone(), event(kind::DEMOUNT)), (record, preempt.clone())]);
        }
        let loss = match place {
            0 => event(kind::DEVICE_RESERVATION_LOSS),
            _ => event_of(kind::NEXUS_RESERVATION_LOSS, seats.owner(place)),
        };
        changes.push((releasable(record, |_| true), loss));
        changes.push((record.clone(), vendor_release(place as u16)));
    }
    changes
}

/// Microcode over all sets; where place 0 is empty, or is given the number that it had; and over one LOCAL set alone.
fn by_microcode(record: &Record) -> Vec<Change> {
    let without_all = emptied(record, 0);
    let mut records = vec![record.clone(), numbered(record, record.counter + 1)];
    for place in 1..PLACES {
        let others = (1..PLACES).filter(|&other| other != place);
        records.push(others.fold(without_all.clone(), |record, other| emptied(&record, other)));
    }
    records.push(without_all);
    records.into_iter().map(|record| (record, event(kind::MICROCODE))).collect()
}
