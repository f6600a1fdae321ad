//! The fields that kind 13 ignores: something in each of them, and every value of those that have one byte.

use crate::record::Record;
use crate::stream::Command;

/// A field that kind 13 ignores, with something in it.
#[derive(Clone, Copy, PartialEq, Eq, PartialOrd, Ord, Debug)]
pub enum Ignored {
    NexusWithFlag,
    NexusWithoutMark,
    NexusAbove15,
    Protocol20,
    OtherProtocol,
    Port,
    Length,
}

impl Ignored {
    pub const EVERY: [Ignored; 7] = [
        Ignored::NexusWithFlag,
        Ignored::NexusWithoutMark,
        Ignored::NexusAbove15,
        Ignored::Protocol20,
        Ignored::OtherProtocol,
        Ignored::Port,
        Ignored::Length,
    ];

    /// Whether a command has it, over the record before it.
    pub fn is_in(self, command: &Command, before: &Record) -> bool {
        let nexus = before.nexuses.get(usize::from(command.nexus));
        let protocol = command.protocol;
        match self {
            Ignored::NexusWithFlag => {
                nexus.is_some_and(|it| it.changed_by_another_nexus || it.changed_by_vendor_event)
            }
            Ignored::NexusWithoutMark => nexus.is_some_and(|it| !it.registered),
            Ignored::NexusAbove15 => nexus.is_none(),
            Ignored::Protocol20 => protocol == 0x20,
            Ignored::OtherProtocol => protocol != 0x20 && protocol != 0,
            Ignored::Port => command.port != 0,
            Ignored::Length => command.length != 0,
        }
    }
}

/// A byte that kind 13 ignores.
#[derive(Clone, Copy, PartialEq, Eq, PartialOrd, Ord, Debug)]
pub enum IgnoredByte {
    Nexus,
    Protocol,
    Port,
}

impl IgnoredByte {
    pub const EVERY: [IgnoredByte; 3] = [IgnoredByte::Nexus, IgnoredByte::Protocol, IgnoredByte::Port];

    /// A command with a value in it.
    pub fn with(self, value: u8, command: Command) -> Command {
        match self {
            IgnoredByte::Nexus => Command { nexus: value, ..command },
            IgnoredByte::Protocol => Command { protocol: value, ..command },
            IgnoredByte::Port => Command { port: value, ..command },
        }
    }

    /// What a command has in it.
    pub fn of(self, command: &Command) -> u8 {
        match self {
            IgnoredByte::Nexus => command.nexus,
            IgnoredByte::Protocol => command.protocol,
            IgnoredByte::Port => command.port,
        }
    }
}
