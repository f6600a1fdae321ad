//! Plays P1 to P10 of document 01, "Proved examples", with which hosts each set serves after P5 and P7, the field pointer, a
//! restoring host and a bridge board's batch of document 02 and the recording of a month on a drive program and tells in
//! words what happens.
//!
//! `demo ROOT PROGRAM [ARGUMENT ...]`: ROOT is the repository's root, which has the month in examples/.

#![forbid(unsafe_code)]

#[path = "support/bridge_board.rs"]
mod bridge_board;
#[path = "support/comments.rs"]
mod comments;
#[path = "support/field_pointer.rs"]
mod field_pointer;
#[path = "support/files.rs"]
mod files;
#[path = "support/month.rs"]
mod month;
#[path = "support/pipe.rs"]
mod pipe;
#[path = "support/restoring_host.rs"]
mod restoring_host;
#[path = "support/served.rs"]
mod served;
#[path = "support/standard.rs"]
mod standard;

use month::Month;
use pipe::Pipe;
use reference::answer::{Refused, Sense, FIELD_WRONG, NO_SENSE};
use reference::answer_words::long;
use reference::codes::{page_code, scope};
use reference::comparison::page_builder::{descriptor, SetPage};
use reference::comparison::session::{
    event, give_record, power_on, read_status, security_in, security_out, write,
};
use reference::field_words::field_of;
use reference::hex;
use reference::names::{name_of, DECRYPTION_MODES, ENCRYPTION_MODES, SCOPES, WRITTEN};
use reference::record::Record;
use reference::record_bytes;
use reference::sizes::U_KAD_BYTES;
use reference::stream::{kind, Command, Reply};
use standard::{code, Ended};
use std::process::ExitCode;

const USAGE: &str = "usage: demo ROOT PROGRAM [ARGUMENT ...]";

/// The status buffer lent to the drive.
const LENT: u16 = 100;

/// Why the play can't go on.
type Played = Result<(), String>;

fn main() -> ExitCode {
    let arguments: Vec<String> = std::env::args().skip(1).collect();
    let (month, pipe) = match ready(&arguments) {
        Ok(ready) => ready,
        Err(ended) => return code(Err(ended)),
    };
    let mut play = Play { pipe, document: "01", step: "", differing: Vec::new() };
    println!(
        "The examples of document 01, the field pointer, a restoring host and a bridge board of document 02 and a \
         month of an archive, played on {}.",
        arguments[1..].join(" ")
    );
    println!(
        "A nexus is one host's connection to the tape drive (0 to 15). It sends Set Data Encryption pages;"
    );
    println!(
        "the drive keeps their parameters in places: 0 for all nexuses (ALL), 1 to 4 for one nexus (LOCAL)."
    );
    println!("A read tells the drive which kind of block it met and which of the nexus's keys opened it.");
    println!("A batch is several of these calls, as events, in one.");
    if let Err(trouble) = play.all(&month) {
        println!("{}: can't be played: {trouble}", play.step);
        return ExitCode::FAILURE;
    }
    if !play.differing.is_empty() {
        println!("\n{}: not as documents 01 and 02 say", play.differing.join(", "));
        return ExitCode::FAILURE;
    }
    println!(
        "\nP1 to P10, the field pointer, the restoring host, the bridge board and the month: as documents 01 and 02 say"
    );
    ExitCode::SUCCESS
}

/// The month, read, and the drive program, started.
fn ready(arguments: &[String]) -> Result<(Month, Pipe), Ended> {
    let unusable = |fault: String| Ended::unusable(fault + USAGE);
    if let Some(option) = arguments.iter().take(2).find(|argument| argument.starts_with('-')) {
        return Err(unusable(format!("unknown option {option}\n")));
    }
    let [root, program @ ..] = arguments else { return Err(unusable(String::new())) };
    if program.is_empty() {
        return Err(unusable(String::new()));
    }
    let month = Month::read(root)?;
    let pipe = Pipe::start(program).map_err(|fault| unusable(fault + "\n"))?;
    Ok((month, pipe))
}

/// The play: the drive, the document and the step at hand, and the steps that went another way than it says.
struct Play {
    pipe: Pipe,
    document: &'static str,
    step: &'static str,
    differing: Vec<&'static str>,
}

impl Play {
    fn all(&mut self, month: &Month) -> Played {
        self.p1()?;
        self.p2()?;
        self.p3()?;
        self.p4()?;
        self.p5()?;
        self.p6()?;
        self.p7()?;
        self.p8()?;
        self.p9()?;
        self.p10()?;
        self.field_pointer()?;
        self.restoring_host()?;
        self.bridge_board()?;
        self.month(month)
    }

    fn p1(&mut self) -> Played {
        self.start("P1", "status after power-on", "00 20 00 14, then 20 zeros")?;
        self.status(3, &[0x00, 0x20, 0x00, 0x14], 24)
    }

    fn p2(&mut self) -> Played {
        self.start(
            "P2",
            "nexus 3 sends page K",
            "place 1, number 1, and a status page that tells of the set",
        )?;
        self.page(3, "page K", &SetPage::k().bytes(), 0)?;
        let status = [0x00, 0x20, 0x00, 0x14, 0x21, 0x02, 0x02, 0x01, 0x00, 0x00, 0x00, 0x01, 0x02];
        self.status(3, &status, 24)?;
        self.record("nexus 3 has place 1 with number 1", |record| {
            (record.selected_place(3), record.places[1].number) == (1, 1)
        })
    }

    fn p3(&mut self) -> Played {
        let expected = "7 for K cut to 51 bytes, 8 for K with SCOPE 3 (02, request 6: byte 4)";
        self.start("P3", "damaged pages", expected)?;
        let k = SetPage::k().bytes();
        self.page(3, "page K cut to 51 bytes", &k[..51], 7)?;
        self.wrong_page(3, "page K with byte 4 61h", &SetPage { scope: 3, ..SetPage::k() }.bytes(), 4)?;
        Ok(())
    }

    fn p4(&mut self) -> Played {
        self.start("P4", "writing after P2", "encrypted from place 1; 12 where the volume can't hold it")?;
        self.page(3, "page K", &SetPage::k().bytes(), 0)?;
        self.write(3, true, Ok([2, 1, 1]))?;
        self.write(3, false, Err(12))
    }

    fn p5(&mut self) -> Played {
        let expected = "nexus 4 takes place 1, number 6; nexus 0 is PUBLIC and is told (3)";
        self.start("P5", "five nexuses, four LOCAL places, nobody locked", expected)?;
        let page = SetPage::k_unlocked().bytes();
        self.pages(
            "Nexuses 0, 1, 2 and 3 each send page K unlocked",
            &[0, 1, 2, 3].map(|nexus| (nexus, page.clone())),
        )?;
        self.page(4, "page K unlocked", &page, 0)?;
        self.write(4, true, Ok([2, 1, 1]))?;
        let status = [0x00, 0x20, 0x00, 0x14, 0x21, 0x02, 0x02, 0x01, 0x00, 0x00, 0x00, 0x06, 0x02];
        self.status(4, &status, 24)?;
        self.write(0, true, Err(3))?;
        self.status(0, &[0x00, 0x20, 0x00, 0x14], 24)?;
        // place 0: nexus 0 and nexuses 5 to 15; then nexuses 4, 1, 2 and 3
        self.served([0xFFE1, 0x0010, 0x0002, 0x0004, 0x0008])
    }

    fn p6(&mut self) -> Played {
        self.start("P6", "as P5, but all four locked", "10 for nexus 4")?;
        self.pages(
            "Nexuses 0, 1, 2 and 3 each send page K",
            &[0, 1, 2, 3].map(|nexus| (nexus, SetPage::k().bytes())),
        )?;
        self.page(4, "page K", &SetPage::k().bytes(), 10)
    }

    fn p7(&mut self) -> Played {
        let expected = "number 2 drawn; nexus 3's write gives 4, then 11";
        self.start("P7", "the volume is demounted after P2", expected)?;
        self.page(3, "page K", &SetPage::k().bytes(), 0)?;
        self.tell("The volume is demounted (K has CKOD, clear key on demount)", &event(kind::DEMOUNT), 0)?;
        self.record("place 1 is empty with number 2", |record| {
            (record.places[1].is_used(), record.places[1].number, record.counter) == (false, 2, 2)
        })?;
        // place 0: nexuses 0 to 15, nexus 3 among them again
        self.served([0xFFFF, 0, 0, 0, 0])?;
        self.write(3, true, Err(4))?;
        self.write(3, true, Err(11))
    }

    fn p8(&mut self) -> Played {
        let expected = "nexus 5's write gives 3, then 11";
        self.start("P8", "nexus 5 locks PUBLIC, then nexus 6 sets ALL", expected)?;
        self.page(5, "a PUBLIC page", &SetPage::public(true).bytes(), 0)?;
        self.page(6, "an ALL page", &SetPage::all().bytes(), 0)?;
        self.write(5, true, Err(3))?;
        self.write(5, true, Err(11))
    }

    fn p9(&mut self) -> Played {
        let expected = "the write still passes after a supplemental key; 9 for the fifth key";
        self.start("P9", "supplemental keys after P2", expected)?;
        self.page(3, "page K", &SetPage::k().bytes(), 0)?;
        let key = |number| SetPage::supplemental(scope::LOCAL, 2, number).bytes();
        self.page(3, "supplemental key 1", &key(1), 0)?;
        self.write(3, true, Ok([2, 1, 1]))?;
        self.pages("Nexus 3 sends supplemental keys 2, 3 and 4", &[2, 3, 4].map(|number| (3, key(number))))?;
        self.page(3, "supplemental key 5", &key(5), 9)
    }

    fn p10(&mut self) -> Played {
        let expected = "32 bytes are taken; 8 for 33 bytes and for none (02, request 6: byte 54)";
        self.start("P10", "a description of the key (U-KAD)", expected)?;
        let with =
            |length: usize| SetPage { list: descriptor(0, length as u16, length), ..SetPage::k() }.bytes();
        self.page(3, "page K with a U-KAD of 32 bytes", &with(32), 0)?;
        let mut status = vec![0x00, 0x20, 0x00, 0x38, 0x21, 0x02, 0x02, 0x01, 0x00, 0x00, 0x00, 0x01, 0x02];
        status.resize(24, 0);
        status.extend(descriptor(0, 32, 32));
        self.status(3, &status, 60)?;
        self.wrong_page(3, "page K with a U-KAD of 33 bytes", &with(33), 54)?;
        self.wrong_page(3, "page K with a U-KAD of 0 bytes", &with(0), 54)?;
        Ok(())
    }

    /// A step's heading, what the document expects, and power-on.
    fn start(&mut self, step: &'static str, what: &str, expected: &str) -> Played {
        self.step = step;
        println!("\n{step}: {what}\n  Document {} expects: {expected}.", self.document);
        let reply = self.pipe.ask(&power_on())?;
        println!("  Power-on: {}", reply_words(&power_on(), &reply));
        self.check(is_plain(&reply, 0), "answer 0");
        Ok(())
    }

    /// Says so if the drive went another way.
    fn check(&mut self, same: bool, expected: &str) {
        if !same {
            self.differs(&format!("document {} says {expected}", self.document));
        }
    }

    /// Says how the drive went another way at this step.
    fn differs(&mut self, how: &str) {
        println!("    DIFFERS: {how}");
        if !self.differing.contains(&self.step) {
            self.differing.push(self.step);
        }
    }

    /// A command that is answered by its number alone.
    fn tell(&mut self, words: &str, command: &Command, number: u8) -> Played {
        let expected = Reply { number, sense: sense_of(number), data: Vec::new() };
        self.exchange(words, command, &expected).map(|_| ())
    }

    /// A command with a page that has a wrong field; expected is the number of the faulty byte.
    fn tell_wrong(&mut self, words: &str, command: &Command, byte: u16) -> Result<Reply, String> {
        let (number, data) = (FIELD_WRONG, byte.to_be_bytes().to_vec());
        self.exchange(words, command, &Reply { number, sense: sense_of(number), data })
    }

    /// A command, and the whole reply that is expected.
    fn exchange(&mut self, words: &str, command: &Command, expected: &Reply) -> Result<Reply, String> {
        let reply = self.pipe.ask(command)?;
        println!("  {words} -> {}", reply_words(command, &reply));
        self.check(reply == *expected, &reply_words(command, expected));
        Ok(reply)
    }

    /// A nexus sends a page.
    fn page(&mut self, nexus: u8, name: &str, page: &[u8], number: u8) -> Played {
        self.tell(&sending(nexus, name, page), &security_out(nexus, page.to_vec()), number)
    }

    /// A nexus sends a page that has a wrong field.
    fn wrong_page(&mut self, nexus: u8, name: &str, page: &[u8], byte: u16) -> Result<Reply, String> {
        self.tell_wrong(&sending(nexus, name, page), &security_out(nexus, page.to_vec()), byte)
    }

    /// Several pages of one form, each from its nexus, and each is answered 0.
    fn pages(&mut self, words: &str, pages: &[(u8, Vec<u8>)]) -> Played {
        println!("  {words} ({})", page_words(&pages[0].1));
        let mut exchanges = Vec::new();
        for (nexus, page) in pages {
            let command = security_out(*nexus, page.clone());
            let reply = self.pipe.ask(&command)?;
            exchanges.push((command, reply));
        }
        let other = exchanges.iter().find(|(_, reply)| !is_plain(reply, 0));
        let (which, (command, reply)) = other.map_or(("each", &exchanges[0]), |other| ("one of them", other));
        println!("    -> {which}: {}", reply_words(command, reply));
        self.check(other.is_none(), &expected_words(0));
        Ok(())
    }

    /// A nexus writes; expected are decision, place and index, or a number.
    fn write(&mut self, nexus: u8, supported: bool, expected: Result<[u8; 3], u8>) -> Played {
        let command = write(nexus, supported);
        let reply = self.pipe.ask(&command)?;
        let volume = if supported { "supports" } else { "doesn't support" };
        let decision = match (reply.number, reply.data.as_slice()) {
            (0, [decision, place, index]) => {
                format!(": {}, place {place}, index {index}", decision_name(*decision))
            }
            _ => String::new(),
        };
        let answer = reply_words(&command, &reply);
        println!("  Nexus {nexus} writes (the volume {volume} algorithm 1) -> {answer}{decision}");
        match expected {
            Ok(data) => {
                let words = format!("{}, place {}, index {}", decision_name(data[0]), data[1], data[2]);
                self.check(
                    (reply.number, reply.sense, reply.data.as_slice()) == (0, NO_SENSE, &data),
                    &words,
                );
            }
            Err(number) => self.check(is_plain(&reply, number), &expected_words(number)),
        }
        Ok(())
    }

    /// A nexus reads its status page, which begins with these bytes and has zeros after them, and the status
    /// reader (253) tells what it says.
    fn status(&mut self, nexus: u8, begins: &[u8], length: usize) -> Played {
        let mut expected = begins.to_vec();
        expected.resize(length, 0);
        let command = security_in(nexus, page_code::STATUS, LENT);
        let reply = self.pipe.ask(&command)?;
        let full =
            reply.data.get(..2).map_or(0, |bytes| usize::from(u16::from_be_bytes([bytes[0], bytes[1]])));
        let page = reply.data.get(2..2 + full).unwrap_or(&[]).to_vec();
        println!("  Nexus {nexus} reads its status page (0020h) -> {}", reply_words(&command, &reply));
        println!("    {}", bytes_words(&page));
        self.check(reply.number == 0 && page == expected, &bytes_words(&expected));
        let command = read_status(page);
        let read = self.pipe.ask(&command)?;
        println!("    the status reader: {}", status_words(&command, &read));
        let expected = Reply { number: 0, sense: NO_SENSE, data: status_values(&expected) };
        self.check(read == expected, &status_words(&command, &expected));
        Ok(())
    }

    /// The drive's record, asked whether something holds of it.
    fn record(&mut self, words: &str, holds: impl Fn(&Record) -> bool) -> Played {
        let reply = self.pipe.ask(&give_record())?;
        let same = record_bytes::load(&reply.data).is_some_and(|record| holds(&record));
        println!("  The drive's record: {}{words}", if same { "" } else { "it is not so that " });
        self.check(same, words);
        Ok(())
    }
}

/// Whether a reply is this number with the documents' sense and nothing else.
fn is_plain(reply: &Reply, number: u8) -> bool {
    reply.number == number && reply.sense == sense_of(number) && reply.data.is_empty()
}

/// The documents' sense for an answer number.
fn sense_of(number: u8) -> Sense {
    let refused = Refused::EVERY.into_iter().find(|refused| refused.number() == number);
    refused.map_or(NO_SENSE, Refused::sense)
}

/// The answer to a command: its number with its meaning, the wrong field of the command's page if it tells one, and its
/// sense with SPC-4's name.
fn reply_words(command: &Command, reply: &Reply) -> String {
    long(reply.number, reply.sense, field_of(command, reply).as_deref())
}

fn expected_words(number: u8) -> String {
    long(number, sense_of(number), None)
}

fn sending(nexus: u8, name: &str, page: &[u8]) -> String {
    format!("Nexus {nexus} sends {name} ({})", page_words(page))
}

fn scope_name(scope: u8) -> &'static str {
    name_of(&SCOPES, scope).unwrap_or("unknown")
}

fn encryption_name(mode: u8) -> &'static str {
    name_of(&ENCRYPTION_MODES, mode).unwrap_or("unknown")
}

fn decryption_name(mode: u8) -> &'static str {
    name_of(&DECRYPTION_MODES, mode).unwrap_or("unknown")
}

fn decision_name(decision: u8) -> &'static str {
    name_of(&WRITTEN, decision).unwrap_or("unknown")
}

/// A Set Data Encryption page of at least 20 bytes, in words.
fn page_words(page: &[u8]) -> String {
    let scope = page[4] >> 5;
    let scope_words = if scope > 2 { format!("SCOPE {scope}") } else { scope_name(scope).to_string() };
    let count = page.len();
    if page[5] & 0x08 != 0 && scope != 0 {
        return format!("{scope_words}, SDK, {}, {count} bytes", decryption_name(page[7]));
    }
    let lock = if page[4] & 1 == 1 { "locked" } else { "unlocked" };
    if scope == 0 {
        return format!("{scope_words}, {lock}, {count} bytes");
    }
    let modes = format!("{}/{}", encryption_name(page[6]), decryption_name(page[7]));
    format!("{scope_words}, {lock}, {modes}, {count} bytes")
}

/// Bytes in hex; zeros at the end are counted, and a long page is cut.
fn bytes_words(page: &[u8]) -> String {
    let end = page.iter().rposition(|&byte| byte != 0).map_or(0, |last| last + 1);
    let shown = hex::words(&page[..end.min(28)]);
    let rest = match (end > 28, page.len() - end) {
        (true, _) => format!(" and {} more", page.len() - 28),
        (false, 0) => String::new(),
        (false, zeros) => format!(", then {zeros} zeros"),
    };
    shown.join(" ") + &rest
}

/// The values the status reader is to give for a status page whose only descriptor, if any, is a U-KAD.
fn status_values(page: &[u8]) -> Vec<u8> {
    let mut values = vec![page[4] >> 5, page[4] & 7, page[5], page[6], page[7]];
    values.extend(&page[8..12]);
    values.extend([page[12] >> 1 & 3, page[12] & 1]);
    let u_kad = page.get(28..).unwrap_or(&[]);
    values.push(u_kad.len() as u8);
    values.extend(u_kad);
    values.resize(11 + 1 + 32 + 1 + 12, 0);
    values
}

/// What the status reader answers, in words.
fn status_words(command: &Command, reply: &Reply) -> String {
    let Some((values, rest)) = reply.data.split_first_chunk::<12>() else {
        return reply_words(command, reply);
    };
    let [nexus_scope, set_scope, encryption, decryption, index, n3, n2, n1, n0, ceems, rdmd, u_kad] = *values;
    let number = u32::from_be_bytes([n3, n2, n1, n0]);
    let a_kad = rest.get(U_KAD_BYTES).copied().unwrap_or(0);
    let set = if set_scope == 0 { "default" } else { scope_name(set_scope) };
    format!(
        "nexus {}, set {set}, {}/{}, index {index}, number {number},\n      \
         CEEMS {ceems}, RDMD {rdmd}, U-KAD of {u_kad} bytes, A-KAD of {a_kad} bytes",
        scope_name(nexus_scope),
        encryption_name(encryption),
        decryption_name(decryption),
    )
}
