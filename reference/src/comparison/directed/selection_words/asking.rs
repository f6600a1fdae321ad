//! Sessions in which kind 13 is asked about every place after each call, made call by call beside a shadow drive.

use crate::comparison::page_builder::SetPage;
use crate::comparison::session::{load, power_on, security_out, serves, write, Session, Sink};
use crate::record::Record;
use crate::sizes::PLACES;
use crate::stream::{Command, Drive};

/// A session in the making.
pub struct Asking {
    commands: Vec<Command>,
    shadow: Drive,
}

impl Asking {
    /// From power-on.
    pub fn new() -> Self {
        Asking::starting(power_on())
    }

    /// From a record.
    pub fn from(record: &Record) -> Self {
        Asking::starting(load(record))
    }

    /// From a call.
    fn starting(command: Command) -> Self {
        let mut asking = Asking { commands: Vec::new(), shadow: Drive::new() };
        asking.call(command);
        asking
    }

    /// One call more, and whom each place serves after it.
    pub fn call(&mut self, command: Command) {
        self.shadow.answer(&command);
        self.commands.push(command);
        self.commands.extend((0..PLACES as u16).map(serves));
    }

    /// A page that is looked at: writes take before it what is pending for its sender.
    pub fn send(&mut self, nexus: u8, page: &SetPage) {
        while self.is_pending(nexus) {
            self.call(write(nexus, true));
        }
        self.call(security_out(nexus, page.bytes()));
    }

    /// Whether a unit attention is pending for a nexus.
    fn is_pending(&self, nexus: u8) -> bool {
        let nexus = &self.shadow.controller().record.nexuses[usize::from(nexus)];
        nexus.changed_by_another_nexus || nexus.changed_by_vendor_event
    }

    /// The calls as a session.
    pub fn session(self, name: &str) -> Session {
        Session { name: name.to_string(), commands: self.commands }
    }

    /// The calls become a session.
    pub fn finish(self, name: &str, sink: &mut Sink) {
        sink(self.session(name));
    }
}
