//! What the writes of one recording come to, and what happened between them.

use super::reached::Item;
use crate::claim::second_account::cell;
use crate::claim::{Cell, Column};
use crate::record::Record;
use crate::recording::Moment;
use crate::sizes::NEXUSES;
use crate::stream::kind;

/// Where a write stands among power-on events.
#[derive(Clone, Copy, PartialEq, Eq, PartialOrd, Ord, Debug)]
pub enum Around {
    Before,
    Between,
    After,
}

impl Around {
    pub const EVERY: [Around; 3] = [Around::Before, Around::Between, Around::After];
}

/// The kinds of call that a nexus met while it was locked.
#[derive(Clone, Copy, Default)]
struct Met {
    /// The last one that changed its set in use: its place or its number.
    touched: Option<u8>,
    /// The one of the event before, whether it left the lock or not.
    last: Option<u8>,
}

/// Follows a replay from event to event.
#[derive(Default)]
pub struct Watch {
    events: usize,
    power_ons: usize,
    /// The nexus and the column of each write, and how many power-ons came before it.
    writes: Vec<(u8, Column, usize)>,
    met: [Met; NEXUSES],
    items: Vec<Item>,
}

impl Watch {
    /// Takes an event that is done.
    pub fn see(&mut self, moment: &Moment) {
        self.events += 1;
        if let Some(cell) = cell(moment) {
            self.see_write(moment, cell);
        }
        self.power_ons += usize::from(moment.event.kind == kind::POWER_ON);
        let after = &moment.drive.controller().record;
        for (nexus, met) in self.met.iter_mut().enumerate() {
            if !moment.before.nexuses[nexus].lock {
                *met = Met::default();
                continue;
            }
            met.last = Some(moment.event.kind);
            if in_use(moment.before, nexus) != in_use(after, nexus) {
                met.touched = met.last;
            }
        }
    }

    /// Takes a write, by its cell, its answer and the record before it.
    fn see_write(&mut self, moment: &Moment, (row, column): Cell) {
        let nexus = moment.event.nexus;
        self.writes.push((nexus, column, self.power_ons));
        self.items.push(Item::Cell(row, column));
        self.items.push(Item::Answer(moment.reply.number, column));
        let writer = usize::from(nexus);
        let Some(met) = self.met.get(writer).copied() else {
            self.items.push(Item::Above15(nexus));
            return;
        };
        if matches!(moment.reply.number, 0 | 12) {
            let encryption = moment.before.selected_set(writer).encryption;
            self.items.push(Item::Decided { encryption, supported: moment.event.argument == 1 });
        }
        match moment.reply.number {
            0 => {
                self.items.push(Item::FromPlace(moment.before.selected_place(writer), column));
                self.items.extend(met.last.map(Item::LockedAndPassed));
            }
            11 => self.items.extend(met.touched.map(Item::LockedAndTouched)),
            _ => {}
        }
    }

    /// How many events there were.
    pub fn events(&self) -> usize {
        self.events
    }

    /// What the writes came to.
    pub fn items(self) -> Vec<Item> {
        let mut items = self.items;
        for &(_, column, before) in &self.writes {
            let around = match (before, self.power_ons - before) {
                (0, 0) => continue,
                (0, _) => Around::Before,
                (_, 0) => Around::After,
                _ => Around::Between,
            };
            items.push(Item::PowerOn(around, column));
        }
        let encrypted = || self.writes.iter().filter(|(_, column, _)| *column == Column::Encrypted);
        let goes_on = |&(nexus, _, before): &(u8, Column, usize)| {
            encrypted().next_back().is_some_and(|last| last.0 == nexus && last.2 > before)
        };
        if encrypted().next().is_some_and(goes_on) {
            items.push(Item::TwoSessions);
        }
        items
    }
}

/// The place and the number of a nexus's set in use.
fn in_use(record: &Record, nexus: usize) -> (usize, u32) {
    let place = record.selected_place(nexus);
    (place, record.places[place].number)
}
