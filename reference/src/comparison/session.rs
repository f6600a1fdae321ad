//! Sessions: named lists of commands. The comparison asks for the record after each of them.

use crate::codes::{page_code, PROTOCOL};
use crate::record::Record;
use crate::record_bytes;
use crate::stream::{kind, Command, Drive};

/// A list of commands that starts from a known record: its first command is power-on or a loaded record.
#[derive(Clone, Debug)]
pub struct Session {
    pub name: String,
    pub commands: Vec<Command>,
}

/// Where finished sessions go.
pub type Sink<'sink> = dyn FnMut(Session) + 'sink;

/// A command with nothing but its kind.
pub fn event(kind: u8) -> Command {
    Command { kind, nexus: 0, argument: 0, protocol: 0, port: 0, length: 0, data: Vec::new() }
}

/// An event of a nexus.
pub fn event_of(kind: u8, nexus: u8) -> Command {
    Command { nexus, ..event(kind) }
}

/// Power-on.
pub fn power_on() -> Command {
    event(kind::POWER_ON)
}

/// IN with a lent buffer of a size.
pub fn security_in(nexus: u8, page_code: u16, size: u16) -> Command {
    Command { nexus, argument: page_code, protocol: PROTOCOL, length: size, ..event(kind::IN) }
}

/// OUT of a Set Data Encryption page.
pub fn security_out(nexus: u8, page: Vec<u8>) -> Command {
    Command {
        nexus,
        argument: page_code::SET_DATA_ENCRYPTION,
        protocol: PROTOCOL,
        ..with_data(kind::OUT, page)
    }
}

/// A write.
pub fn write(nexus: u8, supported: bool) -> Command {
    Command { nexus, argument: u16::from(supported), ..event(kind::WRITE) }
}

/// A read of a block that a key opened.
pub fn read(nexus: u8, block_kind: u8, key: u8) -> Command {
    Command { nexus, argument: u16::from_be_bytes([block_kind, key]), ..event(kind::READ) }
}

/// A vendor release of a place.
pub fn vendor_release(place: u16) -> Command {
    Command { argument: place, ..event(kind::VENDOR_RELEASE) }
}

/// Which nexuses the set in a place serves.
pub fn serves(place: u16) -> Command {
    Command { argument: place, ..event(kind::SERVES) }
}

/// The status reader on a page.
pub fn read_status(page: Vec<u8>) -> Command {
    with_data(kind::READ_STATUS, page)
}

/// A record to be taken from here on.
pub fn load(record: &Record) -> Command {
    load_bytes(record_bytes::give(record))
}

/// A record's bytes to be taken from here on.
pub fn load_bytes(bytes: Vec<u8>) -> Command {
    with_data(kind::LOAD_RECORD, bytes)
}

/// A batch with these data and a lent buffer of a size.
pub fn batch(data: Vec<u8>, room: u16) -> Command {
    Command { argument: room, ..with_data(kind::BATCH, data) }
}

/// A command with data.
fn with_data(kind: u8, data: Vec<u8>) -> Command {
    Command { length: data.len() as u16, data, ..event(kind) }
}

/// The command that gives the record.
pub fn give_record() -> Command {
    event(kind::GIVE_RECORD)
}

/// Calls on one and the same record: it is loaded again after each call that isn't refused. Long lists
/// become several sessions.
pub struct Stage<'sink, 'parts> {
    name: &'parts str,
    record: Record,
    shadow: Drive,
    fresh: bool,
    commands: Vec<Command>,
    sink: &'parts mut Sink<'sink>,
}

impl<'sink, 'parts> Stage<'sink, 'parts> {
    /// Calls in one session at most.
    const CALLS: usize = 40;

    /// A stage for a record.
    pub fn new(name: &'parts str, record: Record, sink: &'parts mut Sink<'sink>) -> Self {
        Stage { name, record, shadow: Drive::new(), fresh: false, commands: Vec::new(), sink }
    }

    /// One call on the stage's record.
    pub fn call(&mut self, command: Command) {
        if !self.fresh {
            let load = load(&self.record);
            self.shadow.answer(&load);
            self.commands.push(load);
        }
        self.fresh = self.shadow.answer(&command).number != 0;
        self.commands.push(command);
        if self.commands.len() >= Self::CALLS {
            self.hand_over();
        }
    }

    /// The calls so far become a session.
    fn hand_over(&mut self) {
        let commands = std::mem::take(&mut self.commands);
        self.fresh = false;
        if !commands.is_empty() {
            (self.sink)(Session { name: self.name.to_string(), commands });
        }
    }

    /// The last calls become a session.
    pub fn finish(mut self) {
        self.hand_over();
    }
}
