//! Sessions side by side: the library's replies and records against the other drive's.

use super::other_drive::{OtherDrive, Trouble};
use super::reached::Reached;
use super::session::give_record;
use crate::account::Account;
use crate::stream::{Command, Drive, Reply};
use std::time::Duration;

/// What differs.
#[derive(Clone, Debug)]
pub enum What {
    /// The reply to the command.
    Reply { other: Reply },
    /// The record after the command.
    Record { other: Reply },
    /// No whole reply came to the command.
    NoReply(Trouble),
    /// No whole record came after the command.
    NoRecord(Trouble),
}

/// A difference: which command of the session, and the reference's side of it.
#[derive(Clone, Debug)]
pub struct Difference {
    pub command: usize,
    pub what: What,
    pub reply: Reply,
    pub record: Reply,
    pub account: Account,
}

/// The bytes to be sent for some commands: each is followed by the command that gives the record.
pub fn bytes_of(commands: &[Command]) -> Vec<u8> {
    let mut bytes = Vec::new();
    let give_record = give_record();
    for command in commands {
        command.give(&mut bytes);
        give_record.give(&mut bytes);
    }
    bytes
}

/// Compares the replies to commands whose bytes were sent, up to the first difference.
pub fn compare(
    commands: &[Command],
    drive: &mut Drive,
    other: &mut OtherDrive,
    mut reached: Option<&mut Reached>,
) -> Option<Difference> {
    let give_record = give_record();
    let mut expected = Vec::new();
    for (number, command) in commands.iter().enumerate() {
        let before = drive.controller().record.clone();
        let reply = drive.answer(command);
        let account = drive.account().clone();
        if let Some(reached) = reached.as_deref_mut() {
            reached.count(command, &before, &reply, &account);
        }
        let record = drive.answer(&give_record);
        expected.clear();
        reply.give(&mut expected);
        let what = match other.expect(&expected) {
            Err(trouble) => Some(What::NoReply(trouble)),
            Ok(Some(other)) => Some(What::Reply { other }),
            Ok(None) => {
                expected.clear();
                record.give(&mut expected);
                match other.expect(&expected) {
                    Err(trouble) => Some(What::NoRecord(trouble)),
                    Ok(Some(other)) => Some(What::Record { other }),
                    Ok(None) => None,
                }
            }
        };
        if let Some(what) = what {
            return Some(Difference { command: number, what, reply, record, account });
        }
    }
    None
}

/// Runs commands on a fresh drive of the other program; the first difference, if any.
pub fn compare_fresh(program: &[String], commands: &[Command], patience: Duration) -> Option<Difference> {
    let mut other = OtherDrive::start(program, patience).ok()?;
    other.send(bytes_of(commands));
    compare(commands, &mut Drive::new(), &mut other, None)
}
