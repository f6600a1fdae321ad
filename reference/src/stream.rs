//! The stream of docs/CONSOLE.md: commands and replies.

use crate::account::Account;
use crate::answer::{Refused, Sense, FIELD_WRONG, NO_SENSE};
use crate::calls::{ReadAs, ReadBlock, Written, WrittenAs};
use crate::controller::Controller;
use crate::record::Record;
use crate::record_bytes;
use crate::recording::Batch;
use crate::status_page::{self, Status};
use std::io::{self, Read, Write};

/// The kinds of command.
pub mod kind {
    pub const POWER_ON: u8 = 0;
    pub const IN: u8 = 1;
    pub const OUT: u8 = 2;
    pub const WRITE: u8 = 3;
    pub const LOGICAL_UNIT_RESET: u8 = 4;
    pub const DEMOUNT: u8 = 5;
    pub const NEXUS_RESERVATION_LOSS: u8 = 6;
    pub const DEVICE_RESERVATION_LOSS: u8 = 7;
    pub const PREEMPT: u8 = 8;
    pub const MICROCODE: u8 = 9;
    pub const VENDOR_RELEASE: u8 = 10;
    pub const READ: u8 = 11;
    pub const BATCH: u8 = 12;
    pub const SERVES: u8 = 13;
    pub const READ_STATUS: u8 = 253;
    pub const LOAD_RECORD: u8 = 254;
    pub const GIVE_RECORD: u8 = 255;
}

/// "An unknown kind is answered 255 with no sense".
pub const UNKNOWN_KIND: u8 = 255;
/// "the lent buffer whole, which the console fills with A5h before the call".
pub const LENT_FILL: u8 = 0xA5;
/// "L the size of the lent buffer (at most 4,096)"; for a batch "argument = size of the lent buffer, at most 4,096".
pub const LENT_LIMIT: usize = 4096;
/// "Command: 8 bytes".
pub const COMMAND_BYTES: usize = 8;
/// The reply's answer number, sense and length M.
pub const REPLY_BYTES: usize = 6;

/// "Command: 8 bytes: kind, nexus, argument (2), protocol, port ..., length L (2); then L data bytes for kinds
/// 2, 12, 253 and 254."
#[derive(Clone, PartialEq, Eq, Debug)]
pub struct Command {
    pub kind: u8,
    pub nexus: u8,
    pub argument: u16,
    pub protocol: u8,
    pub port: u8,
    pub length: u16,
    pub data: Vec<u8>,
}

impl Command {
    /// Whether L data bytes follow the eight; "kinds with data are 2, 12, 253 and 254".
    pub fn has_data(kind: u8) -> bool {
        matches!(kind, kind::OUT | kind::BATCH | kind::READ_STATUS | kind::LOAD_RECORD)
    }

    /// A batch's data: "2 bytes E (big-endian), then E bytes of events, the rest page bytes"; nothing "where E runs past
    /// the data (fewer than 2 bytes of data included)".
    pub fn batch(&self) -> Option<Batch<'_>> {
        let (length, rest) = self.data.split_first_chunk()?;
        let length = usize::from(u16::from_be_bytes(*length));
        Some(Batch { events: rest.get(..length)?, page_bytes: &rest[length..] })
    }

    /// The command's bytes.
    pub fn give(&self, bytes: &mut Vec<u8>) {
        bytes.extend([self.kind, self.nexus]);
        bytes.extend(self.argument.to_be_bytes());
        bytes.extend([self.protocol, self.port]);
        bytes.extend(self.length.to_be_bytes());
        bytes.extend(&self.data);
    }

    /// Reads a command; nothing at the end of input ("a part command is ignored").
    pub fn read(input: &mut impl Read) -> io::Result<Option<Command>> {
        let mut header = [0; COMMAND_BYTES];
        if !read_whole(input, &mut header)? {
            return Ok(None);
        }
        let length = u16::from_be_bytes([header[6], header[7]]);
        let mut data = vec![0; if Command::has_data(header[0]) { usize::from(length) } else { 0 }];
        if !read_whole(input, &mut data)? {
            return Ok(None);
        }
        Ok(Some(Command {
            kind: header[0],
            nexus: header[1],
            argument: u16::from_be_bytes([header[2], header[3]]),
            protocol: header[4],
            port: header[5],
            length,
            data,
        }))
    }
}

/// Fills the bytes, or tells that the input ended before.
fn read_whole(input: &mut impl Read, bytes: &mut [u8]) -> io::Result<bool> {
    match input.read_exact(bytes) {
        Ok(()) => Ok(true),
        Err(error) if error.kind() == io::ErrorKind::UnexpectedEof => Ok(false),
        Err(error) => Err(error),
    }
}

/// A write's decisions by their codes: "0 clear, 1 external, 2 encrypted".
const WRITTEN_AS: [WrittenAs; 3] = [WrittenAs::Clear, WrittenAs::External, WrittenAs::Encrypted];

/// "Reply: answer number, sense key, ASC, ASCQ, length M (2), M bytes."
#[derive(Clone, PartialEq, Eq, Debug)]
pub struct Reply {
    pub number: u8,
    pub sense: Sense,
    pub data: Vec<u8>,
}

impl Reply {
    /// "An unknown kind is answered 255 with no sense": so are a lent buffer above the limit, a support flag that is
    /// neither 0 nor 1, and a batch whose events run past its data.
    fn unknown() -> Reply {
        Reply { number: UNKNOWN_KIND, sense: NO_SENSE, data: Vec::new() }
    }

    /// Answer 0, with data.
    fn done(data: Vec<u8>) -> Reply {
        Reply { number: 0, sense: NO_SENSE, data }
    }

    /// 01: "A refused answer carries its number and sense only." With answer 8, which OUT and the status reader give, the
    /// data are "the number of the faulty byte, counted from 0 in the page"; a page of the stream has 65,535 bytes at most.
    fn refused(refused: Refused) -> Reply {
        let faulty_byte = refused.faulty_byte().map(|byte| (byte as u16).to_be_bytes().to_vec());
        Reply { number: refused.number(), sense: refused.sense(), data: faulty_byte.unwrap_or_default() }
    }

    /// The faulty byte that answer 8 tells; nothing where the reply says something else.
    pub fn faulty_byte(&self) -> Option<usize> {
        match (self.number, &self.data[..]) {
            (FIELD_WRONG, &[high, low]) => Some(usize::from(u16::from_be_bytes([high, low]))),
            _ => None,
        }
    }

    /// What became of a write that is done, as `written` gives it; nothing where the reply says something else.
    pub fn written(&self) -> Option<Written> {
        let (0, &[code, place, index]) = (self.number, &self.data[..]) else { return None };
        let as_what = *WRITTEN_AS.get(usize::from(code))?;
        Some(Written { as_what, place: usize::from(place), index })
    }

    /// The word of a place that is told, as `served` gives it; nothing where the reply says something else.
    pub fn served(&self) -> Option<u64> {
        let word = self.data[..].try_into().ok().filter(|_| self.number == 0);
        word.map(u64::from_be_bytes)
    }

    /// The reply's bytes.
    pub fn give(&self, bytes: &mut Vec<u8>) {
        bytes.push(self.number);
        bytes.extend(self.sense);
        bytes.extend((self.data.len() as u16).to_be_bytes());
        bytes.extend(&self.data);
    }
}

/// The drive on a pipe: the controller behind the stream.
pub struct Drive {
    controller: Controller,
}

impl Default for Drive {
    fn default() -> Self {
        Drive::new()
    }
}

impl Drive {
    /// A drive that starts as after power-on.
    pub fn new() -> Drive {
        Drive { controller: Controller::power_on() }
    }

    /// A drive over a record, which need not be well formed.
    pub fn with(record: Record) -> Drive {
        Drive { controller: Controller::with(record) }
    }

    /// The controller behind the stream.
    pub fn controller(&self) -> &Controller {
        &self.controller
    }

    /// The account of the last command.
    pub fn account(&self) -> &Account {
        &self.controller.account
    }

    /// The answer to one command.
    pub fn answer(&mut self, command: &Command) -> Reply {
        self.controller.account = Account::default();
        let controller = &mut self.controller;
        match command.kind {
            kind::POWER_ON => {
                *controller = Controller::power_on();
                Reply::done(Vec::new())
            }
            kind::IN if usize::from(command.length) > LENT_LIMIT => Reply::unknown(),
            kind::IN => self.security_in(command),
            kind::OUT => plain(controller.security_out(
                command.nexus,
                command.protocol,
                command.argument,
                &command.data,
            )),
            kind::WRITE if command.argument > 1 => Reply::unknown(),
            kind::WRITE => {
                controller.write(command.nexus, command.argument != 0).map_or_else(Reply::refused, written)
            }
            kind::LOGICAL_UNIT_RESET => plain(controller.logical_unit_reset()),
            kind::DEMOUNT => plain(controller.demount()),
            kind::NEXUS_RESERVATION_LOSS => plain(controller.nexus_reservation_loss(command.nexus)),
            kind::DEVICE_RESERVATION_LOSS => plain(controller.device_reservation_loss()),
            kind::PREEMPT => plain(controller.preempt(command.nexus)),
            kind::MICROCODE => plain(controller.microcode()),
            kind::VENDOR_RELEASE => plain(controller.vendor_release(command.argument)),
            kind::READ => {
                // "the argument (bytes 2-3) is block kind times 256 plus key".
                let [block_kind, key] = command.argument.to_be_bytes();
                controller.read(command.nexus, block_kind, key).map_or_else(Reply::refused, read_block)
            }
            kind::BATCH => self.batch(command),
            kind::SERVES => controller.serves(command.argument).map_or_else(Reply::refused, served),
            kind::READ_STATUS => self.read_status(&command.data),
            kind::LOAD_RECORD => self.load_record(&command.data),
            kind::GIVE_RECORD => Reply::done(record_bytes::give(&controller.record)),
            _ => Reply::unknown(),
        }
    }

    /// "IN: the page's full length (2; 0 if refused), then the lent buffer whole".
    fn security_in(&mut self, command: &Command) -> Reply {
        let mut lent = vec![LENT_FILL; usize::from(command.length)];
        let outcome =
            self.controller.security_in(command.nexus, command.protocol, command.argument, &mut lent);
        let (mut reply, length) = match outcome {
            Ok(length) => (Reply::done(Vec::new()), length as u16),
            Err(refused) => (Reply::refused(refused), 0),
        };
        reply.data.extend(length.to_be_bytes());
        reply.data.extend(lent);
        reply
    }

    /// "number 0, 18 or 22, no sense, M = the size of the lent buffer, and the data are the lent buffer whole .., also
    /// where refused"; "Unknown .. where E runs past the data .. or the buffer is above 4,096".
    fn batch(&mut self, command: &Command) -> Reply {
        let size = usize::from(command.argument);
        let Some(batch) = command.batch().filter(|_| size <= LENT_LIMIT) else { return Reply::unknown() };
        let mut lent = vec![LENT_FILL; size];
        let outcome = batch.call(self, &mut lent);
        self.controller.account = Account { batch_rules: outcome.broken, ..Account::default() };
        Reply { number: outcome.verdict.number(), sense: NO_SENSE, data: lent }
    }

    /// "253 reads a status page with the status reader."
    fn read_status(&mut self, page: &[u8]) -> Reply {
        match status_page::read(page) {
            Ok(status) => Reply::done(status_bytes(&status)),
            Err(fault) => {
                self.controller.account.status_rules = fault.broken;
                Reply::refused(fault.answer)
            }
        }
    }

    /// "254 takes data as the device record from here on"; "a yes/no byte above 1 in a record, or one of another
    /// length, is answered 1 and the record stays".
    fn load_record(&mut self, bytes: &[u8]) -> Reply {
        match record_bytes::load(bytes) {
            Some(record) => {
                self.controller.record = record;
                Reply::done(Vec::new())
            }
            None => Reply::refused(Refused::RecordNotWellFormed),
        }
    }
}

/// The reply to a call that gives nothing but its answer.
fn plain(outcome: Result<(), Refused>) -> Reply {
    outcome.map_or_else(Reply::refused, |()| Reply::done(Vec::new()))
}

/// "Write done: 0 clear, 1 external, 2 encrypted; place; index."
fn written(written: Written) -> Reply {
    let as_what = WRITTEN_AS.iter().position(|&as_what| as_what == written.as_what);
    Reply::done(vec![as_what.expect("each decision has a code") as u8, written.place as u8, written.index])
}

/// "Reply when done (answer 0): M = 2: 0 plain, 1 raw, 2 decrypted; then the place."
fn read_block(block: ReadBlock) -> Reply {
    let as_what = match block.as_what {
        ReadAs::Plain => 0,
        ReadAs::Raw => 1,
        ReadAs::Decrypted => 2,
    };
    Reply::done(vec![as_what, block.place as u8])
}

/// "Reply: answer 0 with M = 8: the place's word, big-endian".
fn served(word: u64) -> Reply {
    Reply::done(word.to_be_bytes().to_vec())
}

/// "253 done: nexus scope, set scope, encryption, decryption, index, number (4), CEEMS, RDMD, U-KAD length,
/// 32 bytes, A-KAD length, 12 bytes."
fn status_bytes(status: &Status) -> Vec<u8> {
    let mut bytes =
        vec![status.nexus_scope, status.set_scope, status.encryption, status.decryption, status.index];
    bytes.extend(status.number.to_be_bytes());
    bytes.extend([status.ceems, u8::from(status.rdmd)]);
    bytes.push(status.u_kad.length);
    bytes.extend(status.u_kad.bytes);
    bytes.push(status.a_kad.length);
    bytes.extend(status.a_kad.bytes);
    bytes
}

/// Answers commands until the input ends. "A command is answered before the next is read."
pub fn serve(drive: &mut Drive, input: &mut impl Read, output: &mut impl Write) -> io::Result<()> {
    let mut bytes = Vec::new();
    while let Some(command) = Command::read(input)? {
        bytes.clear();
        drive.answer(&command).give(&mut bytes);
        output.write_all(&bytes)?;
        output.flush()?;
    }
    Ok(())
}
