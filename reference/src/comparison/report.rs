//! What is printed about a difference: the short session, both replies, the reference's account.

use super::batch_builder::BatchParts;
use super::difference::{Difference, What};
use super::other_drive::Trouble;
use super::recordings::report::event_text;
use super::session::give_record;
use crate::account::Account;
use crate::answer::Broken;
use crate::answer_words::{sense_codes, when};
use crate::field_words::field_of;
use crate::hex;
use crate::names::{name_of, CALLS};
use crate::record::Record;
use crate::record_bytes::{field_name, RECORD_BYTES, SELECTION_WORD};
use crate::recording::{run_on, ANSWER_BYTES};
use crate::selection_words::in_words;
use crate::stream::{kind, Command, Drive, Reply};
use std::fmt::Write;

/// The most events and page bytes of a batch that are written out.
const MOST_EVENTS: usize = 100;
const MOST_PAGE_BYTES: usize = 4096;

/// The name of a kind of command.
pub fn kind_name(kind: u8) -> &'static str {
    match kind {
        kind::BATCH => "batch",
        kind::SERVES => "serves",
        kind::READ_STATUS => "status reader (253)",
        kind::LOAD_RECORD => "load record (254)",
        kind::GIVE_RECORD => "give record (255)",
        _ => name_of(&CALLS, kind).unwrap_or("unknown kind"),
    }
}

/// Bytes in rows of 16; a run of zeros to the end is told by its length.
pub fn rows(bytes: &[u8]) -> String {
    let end = bytes.iter().rposition(|&byte| byte != 0).map_or(0, |last| last + 1);
    let zeros = bytes.len() - end;
    let end = if zeros > 16 { end } else { bytes.len() };
    let mut text = String::new();
    for (row, part) in bytes[..end].chunks(16).enumerate() {
        let _ = writeln!(text, "        {:4}: {}", row * 16, hex::words(part).join(" "));
    }
    if end < bytes.len() {
        let _ = writeln!(text, "        {:4}: {} zeros", end, bytes.len() - end);
    }
    text
}

/// A command in words, with the reference's reply to it.
fn command_text(command: &Command, reply: &Reply) -> String {
    let mut text = kind_name(command.kind).to_string();
    let _ = match command.kind {
        kind::IN => write!(
            text,
            ", nexus {}, protocol {:02X}h, page {:04X}h, lent buffer of {}",
            command.nexus, command.protocol, command.argument, command.length
        ),
        kind::OUT => write!(
            text,
            ", nexus {}, protocol {:02X}h, page {:04X}h, {} bytes",
            command.nexus,
            command.protocol,
            command.argument,
            command.data.len()
        ),
        kind::WRITE => write!(text, ", nexus {}, support flag {}", command.nexus, command.argument),
        kind::READ => {
            let [block_kind, key] = command.argument.to_be_bytes();
            let (nexus, protocol, port, length) =
                (command.nexus, command.protocol, command.port, command.length);
            write!(
                text,
                ", nexus {nexus}, block kind {block_kind}, key {key} (ignored: protocol {protocol:02X}h, port \
                 {port}, length {length})"
            )
        }
        kind::SERVES => {
            let (place, nexus, protocol) = (command.argument, command.nexus, command.protocol);
            let (port, length) = (command.port, command.length);
            write!(
                text,
                ", place {place} (ignored: nexus {nexus}, protocol {protocol:02X}h, port {port}, length {length})"
            )
        }
        kind::READ_STATUS => write!(text, ", {} bytes", command.data.len()),
        kind::LOAD_RECORD => return load_text(command),
        kind::BATCH => return batch_text(command, reply),
        _ => {
            let mut header = Vec::new();
            command.give(&mut header);
            write!(text, ", nexus {}, argument {} (bytes {header:02X?})", command.nexus, command.argument)
        }
    };
    text.push('\n');
    text + &rows(&command.data)
}

/// A batch in words: its events, with the reference's answers where it is taken, and its page bytes.
fn batch_text(command: &Command, reply: &Reply) -> String {
    let mut text = format!("batch, lent buffer of {}", command.argument);
    let Some(parts) = BatchParts::read(command) else {
        let _ = writeln!(text, ", {} bytes, past which its events run", command.data.len());
        return text + &rows(&command.data);
    };
    let (events, page_bytes) = (parts.events.len(), parts.page_bytes.len());
    let _ = writeln!(text, ", {events} events, {page_bytes} page bytes");
    let answers = if reply.number == 0 { &reply.data[..] } else { &[] };
    let mut answers = answers.chunks_exact(ANSWER_BYTES);
    for (number, event) in parts.events.iter().enumerate().take(MOST_EVENTS) {
        let _ = write!(text, "      event {number}: {}", event_text(event));
        if let Some(answer) = answers.next() {
            let _ = write!(text, "; the reference answers {} ({})", answer[0], when(answer[0]));
        }
        text.push('\n');
    }
    if events > MOST_EVENTS {
        let _ = writeln!(text, "      and {} events more", events - MOST_EVENTS);
    }
    if !parts.left_over.is_empty() {
        let _ = writeln!(text, "      a part event: {:02X?}", parts.left_over);
    }
    text + &rows(&parts.page_bytes[..page_bytes.min(MOST_PAGE_BYTES)])
}

/// A loaded record in words: its fields that aren't zero.
fn load_text(command: &Command) -> String {
    if command.data.len() != RECORD_BYTES {
        return format!("load record (254), {} bytes\n", command.data.len());
    }
    let mut text = "load record (254), zero but for:\n".to_string();
    for (name, bytes) in fields(&command.data) {
        if bytes.iter().any(|&byte| byte != 0) {
            let _ = writeln!(text, "        {name}: {}", value_text(&name, &bytes));
        }
    }
    text
}

/// A record's bytes by field.
fn fields(record: &[u8]) -> Vec<(String, Vec<u8>)> {
    let mut fields: Vec<(String, Vec<u8>)> = Vec::new();
    for (offset, &byte) in record.iter().enumerate() {
        let name = field_name(offset);
        match fields.last_mut() {
            Some((last, bytes)) if *last == name => bytes.push(byte),
            _ => fields.push((name, vec![byte])),
        }
    }
    fields
}

/// A field's bytes, a selection word's with the nexuses that it names.
fn value_text(name: &str, bytes: &[u8]) -> String {
    let word = bytes.try_into().ok().filter(|_| name.ends_with(SELECTION_WORD)).map(u64::from_be_bytes);
    let nexuses = word.map_or(String::new(), |word| format!(" ({})", in_words(word)));
    format!("{bytes:02X?}{nexuses}")
}

/// The fields in which two records of the same length differ.
pub fn differing_fields_text(reference: &[u8], other: &[u8]) -> String {
    let mut text = String::new();
    for ((name, reference), (_, other)) in fields(reference).into_iter().zip(fields(other)) {
        if reference != other {
            let [reference, other] = [reference, other].map(|bytes| value_text(&name, &bytes));
            let _ = writeln!(text, "    {name}: reference {reference}, other {other}");
        }
    }
    text
}

/// The reply to a command in words.
fn reply_text(command: &Command, reply: &Reply) -> String {
    let field = field_of(command, reply).map_or(String::new(), |field| format!(", {field}"));
    let served = reply.served().filter(|_| command.kind == kind::SERVES);
    let served = served.map_or(String::new(), |word| format!(", {}", in_words(word)));
    format!(
        "answer {} ({}){field}{served}, sense {}, {} bytes\n{}",
        reply.number,
        when(reply.number),
        sense_codes(reply.sense),
        reply.data.len(),
        rows(&reply.data)
    )
}

/// What stands in place of a reply.
fn trouble_text(trouble: &Trouble) -> String {
    match trouble {
        Trouble::Ended { bytes } => format!("its output ended after {bytes} bytes of the reply\n"),
        Trouble::Silent { bytes } => format!("nothing more in time after {bytes} bytes of the reply\n"),
    }
}

/// The fields in which two records differ.
fn record_text(reference: &Reply, other: &Reply) -> String {
    if other.number != reference.number || other.data.len() != reference.data.len() {
        let [reference, other] = [reference, other].map(|reply| reply_text(&give_record(), reply));
        return format!("    reference: {reference}    other: {other}");
    }
    differing_fields_text(&reference.data, &other.data)
}

/// The byte that a broken rule points to.
fn byte_text(byte: Option<usize>) -> String {
    byte.map_or("no byte".to_string(), |byte| format!("byte {byte}"))
}

/// The reference's account of a call.
pub fn account_text(account: &Account) -> String {
    let mut text = String::new();
    for clause in &account.clauses {
        let _ = writeln!(text, "    the record isn't well formed: {clause:?} is broken");
    }
    for Broken { rule, byte } in &account.page_rules {
        let _ = writeln!(text, "    the page breaks {rule:?} ({})", byte_text(*byte));
    }
    for Broken { rule, byte } in &account.status_rules {
        let _ = writeln!(text, "    the status page breaks {rule:?} ({})", byte_text(*byte));
    }
    for broken in &account.batch_rules {
        let event = broken.position.map_or(String::new(), |position| format!(" (event {position})"));
        let _ = writeln!(text, "    the batch breaks {:?}{event}", broken.rule);
    }
    if let Some(cell) = &account.read_cell {
        let _ = writeln!(text, "    the read is decided over {cell}");
    }
    for step in &account.steps {
        let _ = writeln!(text, "    {step}");
    }
    if text.is_empty() {
        text.push_str("    no rule to name\n");
    }
    text
}

/// The reference's account of the call that differs, over the record before it: of a batch that is taken, event by event.
fn difference_account_text(command: &Command, before: Record, difference: &Difference) -> String {
    let taken = command.batch().filter(|_| command.kind == kind::BATCH && difference.reply.number == 0);
    let Some(batch) = taken.map(|batch| batch.recording()).filter(|batch| !batch.events.is_empty()) else {
        return account_text(&difference.account);
    };
    let (mut text, mut number) = (String::new(), 0);
    run_on(&mut Drive::with(before), &batch, |moment| {
        let _ = write!(text, "  event {number}:\n{}", account_text(moment.drive.account()));
        number += 1;
    });
    text
}

/// The whole report of a difference.
pub fn difference_text(name: &str, commands: &[Command], difference: &Difference) -> String {
    let mut text = format!("DIFFERENCE in \"{name}\"; short session of {} commands:\n", commands.len());
    let mut drive = Drive::new();
    let mut account = String::new();
    for (number, command) in commands.iter().enumerate() {
        if number == difference.command {
            account = difference_account_text(command, drive.controller().record.clone(), difference);
        }
        let reply = drive.answer(command);
        let _ = write!(text, "  {number}. {}", command_text(command, &reply));
        if number != difference.command {
            let _ = writeln!(text, "      both answer {} ({})", reply.number, when(reply.number));
        }
    }
    let command = &commands[difference.command];
    let _ = match &difference.what {
        What::Reply { other } => write!(
            text,
            "the replies to command {} differ:\n    reference: {}    other: {}",
            difference.command,
            reply_text(command, &difference.reply),
            reply_text(command, other)
        ),
        What::Record { other } => write!(
            text,
            "both replies to command {} are: {}the records after it differ:\n{}",
            difference.command,
            reply_text(command, &difference.reply),
            record_text(&difference.record, other)
        ),
        What::NoReply(trouble) => write!(
            text,
            "command {} has no reply:\n    reference: {}    other: {}",
            difference.command,
            reply_text(command, &difference.reply),
            trouble_text(trouble)
        ),
        What::NoRecord(trouble) => {
            write!(text, "no record after command {}: {}", difference.command, trouble_text(trouble))
        }
    };
    let _ = write!(text, "by the reference's account of command {}:\n{account}", difference.command);
    text
}
