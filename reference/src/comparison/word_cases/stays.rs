//! Nexuses that stay in their place, with the numbers that change elsewhere, and nexuses that a change is about, by their marks.

use super::{By, WordCase, KINDS};
use crate::account::{Account, Rule};
use crate::record::Record;
use crate::sizes::{NEXUSES, PLACES};
use crate::stream::{kind, Command, Reply};
use std::ops::RangeInclusive;

/// The places of nexuses other than the acting one that a call can take from them, or give another number.
fn places_changed_for_others(by: By) -> RangeInclusive<usize> {
    match by {
        // its sender alone
        By::PublicPage => RangeInclusive::new(1, 0),
        By::LocalPage | By::Event(kind::NEXUS_RESERVATION_LOSS) => 1..=PLACES - 1,
        By::AllPage | By::Event(kind::DEVICE_RESERVATION_LOSS) => 0..=0,
        By::Event(_) => 0..=PLACES - 1,
    }
}

/// Whether a call can give a place another number while a nexus stays in a place whose number is the same after it. Microcode
/// leaves nobody in a LOCAL place; an ALL page's number for place 0 can be the one it had.
fn can_change_elsewhere(by: By, place: usize, other: usize) -> bool {
    let can_change = match by {
        By::PublicPage | By::LocalPage | By::Event(kind::NEXUS_RESERVATION_LOSS) => other > 0,
        By::Event(kind::DEVICE_RESERVATION_LOSS) => other == 0,
        By::Event(kind::MICROCODE) => place == 0,
        By::AllPage | By::Event(_) => true,
    };
    can_change && place != other
}

/// Whether cases of a kind of call are counted. Of a batch's events the account tells nothing.
fn is_counted(kind: u8) -> bool {
    KINDS.contains(&kind) && kind != kind::POWER_ON && kind != kind::BATCH
}

/// Every case of a nexus and a place.
fn every_of(nexus: usize, place: usize) -> Vec<WordCase> {
    let mut every = Vec::new();
    for by in By::EVERY {
        let others = (0..PLACES).filter(|&other| can_change_elsewhere(by, place, other));
        every.extend(others.map(|other| WordCase::NotToldOfOther { by, nexus, place, other }));
        if places_changed_for_others(by).contains(&place) {
            let changed = |registered| WordCase::ChangedFor { by, nexus, place, registered };
            every.extend([false, true].map(changed));
        }
    }
    let staying = KINDS.filter(|&kind| is_counted(kind) && (kind != kind::MICROCODE || place == 0));
    every.extend(staying.map(|kind| WordCase::BitStays { kind, nexus, place }));
    every
}

/// Every case.
pub fn every() -> Vec<WordCase> {
    let of_nexus = |nexus| (0..PLACES).flat_map(move |place| every_of(nexus, place));
    (0..NEXUSES).flat_map(of_nexus).collect()
}

/// The places whose number a call changes, by its account.
fn changed_places(before: &Record, account: &Account) -> Vec<usize> {
    let mut numbers = before.places.each_ref().map(|set| set.number);
    for step in account.steps.iter().filter(|step| matches!(step.rule, Rule::Draws | Rule::DrawWraps)) {
        if let (Some(place), Some(number)) = (step.place, step.number) {
            numbers[place] = number;
        }
    }
    (0..PLACES).filter(|&place| numbers[place] != before.places[place].number).collect()
}

/// Whether a call moves a nexus's bit to another word, by its account.
fn is_moved(nexus: usize, account: &Account) -> bool {
    let moves = [Rule::BitMovesToLocalPlace, Rule::BitMovesToPlaceZero];
    account.steps.iter().any(|step| moves.contains(&step.rule) && step.nexus == Some(nexus))
}

/// The cases of a call that is done.
pub fn of(command: &Command, before: &Record, reply: &Reply, account: &Account) -> Vec<WordCase> {
    if reply.number != 0 || !is_counted(command.kind) {
        return Vec::new();
    }
    let changed = changed_places(before, account);
    let mut cases = Vec::new();
    for nexus in 0..NEXUSES {
        let place = before.selected_place(nexus);
        let is_moved = is_moved(nexus, account);
        if !is_moved {
            cases.push(WordCase::BitStays { kind: command.kind, nexus, place });
        }
        let Some(by) = By::of(command).filter(|by| !by.is_acting(nexus, command)) else { continue };
        let it = &before.nexuses[nexus];
        if it.changed_by_another_nexus || it.changed_by_vendor_event {
            continue;
        }
        if is_moved || changed.contains(&place) {
            cases.push(WordCase::ChangedFor { by, nexus, place, registered: it.registered });
        } else if it.registered {
            cases.extend(changed.iter().map(|&other| WordCase::NotToldOfOther { by, nexus, place, other }));
        }
    }
    cases
}
