//! Sessions from power-on, made call by call beside a shadow drive.

use crate::codes::scope;
use crate::comparison::page_builder::SetPage;
use crate::comparison::place_cases::EmptiedBy;
use crate::comparison::session::{
    event, event_of, power_on, security_out, vendor_release, write, Session, Sink,
};
use crate::stream::{kind, Command, Drive};

/// A place with a set in it, and the nexus that owns it.
#[derive(Clone, Copy)]
pub struct Held {
    pub place: usize,
    pub owner: u8,
}

/// K with this lock, which no event releases but microcode and a vendor release.
pub fn lasting(lock: bool) -> SetPage {
    SetPage { lock, ckod: false, ..SetPage::k() }
}

/// The same with scope ALL.
pub fn lasting_all(lock: bool) -> SetPage {
    SetPage { scope: scope::ALL, ..lasting(lock) }
}

/// A session in the making.
pub struct Sequence {
    commands: Vec<Command>,
    shadow: Drive,
}

impl Sequence {
    /// Power-on.
    pub fn new() -> Self {
        Sequence { commands: vec![power_on()], shadow: Drive::new() }
    }

    /// One call more.
    pub fn call(&mut self, command: Command) {
        self.shadow.answer(&command);
        self.commands.push(command);
    }

    /// A page that is looked at: writes take before it what is pending for its sender.
    pub fn send(&mut self, nexus: u8, page: &SetPage) {
        while self.is_pending(nexus) {
            self.call(write(nexus, true));
        }
        self.call(security_out(nexus, page.bytes()));
    }

    /// Whether a unit attention is pending for a nexus.
    fn is_pending(&self, nexus: u8) -> bool {
        let nexus = &self.shadow.controller().record.nexuses[usize::from(nexus)];
        nexus.changed_by_another_nexus || nexus.changed_by_vendor_event
    }

    /// A nexus sends a lasting LOCAL set with this lock.
    pub fn send_local(&mut self, nexus: u8, lock: bool) {
        self.send(nexus, &lasting(lock));
    }

    /// Places whose sets every event can release, and no other set, are emptied; by pages their owners get this lock.
    pub fn empty(&mut self, by: EmptiedBy, places: &[Held], lock: bool) {
        let Some(&Held { owner: preemptor, .. }) = places.first() else { return };
        match by {
            EmptiedBy::Event(kind::PREEMPT) => self.call(event_of(kind::PREEMPT, preemptor)),
            EmptiedBy::Event(kind @ (kind::DEMOUNT | kind::MICROCODE)) => self.call(event(kind)),
            _ => places.iter().for_each(|held| self.empty_one(by, held, lock)),
        }
    }

    /// One place is emptied by a call that is about it.
    fn empty_one(&mut self, by: EmptiedBy, held: &Held, lock: bool) {
        match by {
            EmptiedBy::PublicPage => self.send(held.owner, &SetPage::public(lock)),
            EmptiedBy::AllPage => self.send(held.owner, &lasting_all(lock)),
            EmptiedBy::Event(kind::VENDOR_RELEASE) => self.call(vendor_release(held.place as u16)),
            EmptiedBy::Event(kind) => self.call(event_of(kind, held.owner)),
        }
    }

    /// The calls become a session.
    pub fn finish(self, name: &str, sink: &mut Sink) {
        sink(Session { name: name.to_string(), commands: self.commands });
    }
}
