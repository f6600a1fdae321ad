//! What the stream itself promises: the record a drive starts with, answers before the next command is read,
//! commands in pieces, part commands, the end of input.

use super::batch_builder::BatchParts;
use super::difference::{bytes_of, compare};
use super::other_drive::OtherDrive;
use super::page_builder::SetPage;
use super::report::difference_text;
use super::session::{event, load, power_on, read, read_status, security_in, security_out, serves, write};
use super::{record_builder, Settings};
use crate::stream::{kind, Command, Drive};

/// Every check of the stream; the text of the first failure.
pub fn check(settings: &Settings) -> Result<(), String> {
    starts_as_after_power_on(settings)?;
    answers_one_by_one(settings)?;
    takes_commands_in_pieces(settings)?;
    ignores_part_commands(settings)
}

/// Some commands of every shape.
fn some_commands() -> Vec<Command> {
    vec![
        power_on(),
        security_out(3, SetPage::k().bytes()),
        security_in(3, 0x0020, 30),
        write(3, true),
        read(3, 1, 0),
        event(kind::DEMOUNT),
        write(3, true),
        read_status(vec![0; 24]),
        load(&record_builder::mixed()),
        serves(1),
        event(14),
        Command { length: 9, ..serves(0) },
        batch_of_two(),
        Command { argument: u16::MAX, ..batch_of_two() },
        security_in(0, 0x0012, 0),
    ]
}

/// A batch with a page: K and a write.
fn batch_of_two() -> Command {
    BatchParts::of(&[security_out(3, SetPage::k().bytes()), write(3, true)]).command()
}

/// Starts the other drive.
fn start(settings: &Settings) -> Result<OtherDrive, String> {
    OtherDrive::start(&settings.program, settings.patience)
        .map_err(|error| format!("the other drive can't be started: {error}"))
}

/// A drive that has had no command has the record of power-on.
fn starts_as_after_power_on(settings: &Settings) -> Result<(), String> {
    let mut other = start(settings)?;
    compare_now("the record before any command", &[event(kind::GIVE_RECORD)], &mut Drive::new(), &mut other)
}

/// Sends commands and compares their replies.
fn compare_now(
    name: &str,
    commands: &[Command],
    drive: &mut Drive,
    other: &mut OtherDrive,
) -> Result<(), String> {
    other.send(bytes_of(commands));
    match compare(commands, drive, other, None) {
        None => Ok(()),
        Some(difference) => Err(difference_text(name, commands, &difference)),
    }
}

/// "A command is answered before the next is read."
fn answers_one_by_one(settings: &Settings) -> Result<(), String> {
    let mut other = start(settings)?;
    let mut drive = Drive::new();
    let mut expected = Vec::new();
    for command in some_commands() {
        let mut bytes = Vec::new();
        command.give(&mut bytes);
        other.send(bytes);
        expected.clear();
        drive.answer(&command).give(&mut expected);
        match other.expect(&expected) {
            Ok(None) => {}
            outcome => {
                return Err(format!("DIFFERENCE with one command at a time: {command:?}\n    {outcome:?}\n"))
            }
        }
    }
    Ok(())
}

/// A command's bytes may come one by one.
fn takes_commands_in_pieces(settings: &Settings) -> Result<(), String> {
    let mut other = start(settings)?;
    let commands: Vec<Command> =
        some_commands().into_iter().filter(|command| command.kind != kind::LOAD_RECORD).collect();
    for byte in bytes_of(&commands) {
        other.send(vec![byte]);
    }
    compare_pieces(&commands, &mut other)
}

/// Compares the replies to commands sent in pieces.
fn compare_pieces(commands: &[Command], other: &mut OtherDrive) -> Result<(), String> {
    match compare(commands, &mut Drive::new(), other, None) {
        None => Ok(()),
        Some(difference) => Err(difference_text("commands in pieces", commands, &difference)),
    }
}

/// "It ends at the end of input; a part command is ignored."
fn ignores_part_commands(settings: &Settings) -> Result<(), String> {
    let commands = some_commands();
    let mut expected = Vec::new();
    let mut drive = Drive::new();
    for command in &commands {
        drive.answer(command).give(&mut expected);
    }
    let mut sent = Vec::new();
    commands.iter().for_each(|command| command.give(&mut sent));
    for part in part_commands() {
        let mut other = start(settings)?;
        other.send([&sent[..], &part].concat());
        match other.end() {
            Ok((replies, status)) if replies == expected && status.success() => {}
            Ok((replies, status)) => {
                return Err(format!(
                    "DIFFERENCE at the end of input after the part command {part:02X?}: {} bytes of replies \
                     where the reference gives {}, {status}\n",
                    replies.len(),
                    expected.len()
                ))
            }
            Err(trouble) => {
                return Err(format!(
                    "DIFFERENCE at the end of input after the part command {part:02X?}: {trouble:?}\n"
                ))
            }
        }
    }
    Ok(())
}

/// Nothing at all, and commands cut at several bytes.
fn part_commands() -> Vec<Vec<u8>> {
    let mut parts = vec![Vec::new()];
    for (command, cuts) in [
        (power_on(), &[1, 4, 7][..]),
        (read(3, 0, 255), &[1, 4, 7]),
        (serves(1), &[1, 4, 7]),
        (security_out(3, SetPage::k().bytes()), &[8, 9, 59]),
        (batch_of_two(), &[7, 8, 9, 10, 26, 77]),
        (Command { argument: u16::MAX, ..batch_of_two() }, &[8, 77]),
        (read_status(vec![0; 24]), &[8, 31]),
        (load(&record_builder::mixed()), &[8, 1000, 1325, 1364]),
    ] {
        let mut bytes = Vec::new();
        command.give(&mut bytes);
        parts.extend(cuts.iter().map(|&cut| bytes[..cut].to_vec()));
    }
    parts
}
