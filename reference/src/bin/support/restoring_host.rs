//! The restoring host: a host that wrote a volume under its key reads it, by request 1 of document 02.

use crate::{expected_words, is_plain, reply_words, Play, Played};
use reference::answer::NO_SENSE;
use reference::codes::{block_kind, decryption, encryption, opening_key, scope};
use reference::comparison::page_builder::SetPage;
use reference::comparison::session::{event, read};
use reference::names::{name_of, READ};
use reference::stream::kind;

/// A plain block, and an encrypted one that no key opened.
const PLAIN: (u8, u8) = (block_kind::PLAIN, opening_key::NONE);
const OPENED_BY_NONE: (u8, u8) = (block_kind::ENCRYPTED_UNDER_ALGORITHM_1, opening_key::NONE);
/// A block encrypted under another algorithm.
const OTHERWISE: (u8, u8) = (block_kind::ENCRYPTED_OTHERWISE, opening_key::NONE);

/// A block that a key opened.
fn opened_by(key: u8) -> (u8, u8) {
    (block_kind::ENCRYPTED_UNDER_ALGORITHM_1, key)
}

impl Play {
    pub fn restoring_host(&mut self) -> Played {
        self.document = "02";
        self.r1()?;
        self.r2()?;
        self.r3()?;
        self.r4()?;
        self.r5()?;
        self.r6()
    }

    fn r1(&mut self) -> Played {
        let expected = "plain blocks pass; 15 for encrypted ones, and 14 for a key the set doesn't have";
        self.start("R1", "a host writes a volume under its key and reads under DISABLE", expected)?;
        let page = SetPage { decryption: decryption::DISABLE, ..SetPage::k() };
        self.page(3, "page K with DISABLE", &page.bytes(), 0)?;
        self.write(3, true, Ok([2, 1, 1]))?;
        self.read(3, PLAIN, Ok([0, 1]))?;
        self.read(3, opened_by(0), Err(15))?;
        self.read(3, OTHERWISE, Err(15))?;
        self.read(3, opened_by(1), Err(14))
    }

    fn r2(&mut self) -> Played {
        let expected = "all blocks pass, encrypted ones as raw; 14 for a key, since the set has none";
        self.start("R2", "the volume is copied as it is, under RAW", expected)?;
        let page = SetPage {
            encryption: encryption::DISABLE,
            decryption: decryption::RAW,
            key: Vec::new(),
            ..SetPage::k()
        };
        self.page(3, "a page without key", &page.bytes(), 0)?;
        self.read(3, PLAIN, Ok([0, 1]))?;
        self.read(3, OPENED_BY_NONE, Ok([1, 1]))?;
        self.read(3, OTHERWISE, Ok([1, 1]))?;
        self.read(3, opened_by(0), Err(14))
    }

    fn r3(&mut self) -> Played {
        let expected = "decrypted where the key opened it, else 17; 16 for plain, 15 for other encryption";
        self.start("R3", "the volume is restored under DECRYPT", expected)?;
        self.page(3, "page K", &SetPage::k().bytes(), 0)?;
        self.read(3, opened_by(0), Ok([2, 1]))?;
        self.read(3, OPENED_BY_NONE, Err(17))?;
        self.read(3, PLAIN, Err(16))?;
        self.read(3, OTHERWISE, Err(15))
    }

    fn r4(&mut self) -> Played {
        let expected = "as R3, but plain blocks pass";
        self.start("R4", "the volume is restored under MIXED", expected)?;
        let page = SetPage { encryption: encryption::DISABLE, decryption: decryption::MIXED, ..SetPage::k() };
        self.page(3, "page K with DISABLE/MIXED", &page.bytes(), 0)?;
        self.read(3, opened_by(0), Ok([2, 1]))?;
        self.read(3, PLAIN, Ok([0, 1]))?;
        self.read(3, OPENED_BY_NONE, Err(17))?;
        self.read(3, OTHERWISE, Err(15))
    }

    fn r5(&mut self) -> Played {
        let expected = "14 for supplemental key 1 before its page, decrypted after it";
        self.start("R5", "a part of the volume has an older key", expected)?;
        self.page(3, "page K", &SetPage::k().bytes(), 0)?;
        self.read(3, opened_by(1), Err(14))?;
        let page = SetPage::supplemental(scope::LOCAL, decryption::DECRYPT, 1);
        self.page(3, "supplemental key 1", &page.bytes(), 0)?;
        self.read(3, opened_by(1), Ok([2, 1]))?;
        self.read(3, opened_by(0), Ok([2, 1]))?;
        self.read(3, opened_by(2), Err(14))
    }

    fn r6(&mut self) -> Played {
        let expected = "4, then 11 for each write; reads go on, first plain, then by the set for all nexuses";
        self.start("R6", "the locked host of P7, whose key was released", expected)?;
        self.page(3, "page K", &SetPage::k().bytes(), 0)?;
        self.read(3, opened_by(0), Ok([2, 1]))?;
        self.tell("The volume is demounted (K has CKOD, clear key on demount)", &event(kind::DEMOUNT), 0)?;
        self.read(3, opened_by(0), Err(4))?;
        self.write(3, true, Err(11))?;
        self.read(3, PLAIN, Ok([0, 0]))?;
        self.read(3, OPENED_BY_NONE, Err(15))?;
        self.page(6, "an ALL page", &SetPage::all().bytes(), 0)?;
        self.read(3, opened_by(0), Err(3))?;
        self.write(3, true, Err(11))?;
        self.read(3, opened_by(0), Ok([2, 0]))
    }

    /// A nexus reads a block of a kind that a key opened; expected are decision and place, or a number.
    fn read(&mut self, nexus: u8, (block_kind, key): (u8, u8), expected: Result<[u8; 2], u8>) -> Played {
        let command = read(nexus, block_kind, key);
        let reply = self.pipe.ask(&command)?;
        let decision = match (reply.number, reply.data.as_slice()) {
            (0, [decision, place]) => format!(": {}, place {place}", read_name(*decision)),
            _ => String::new(),
        };
        let answer = reply_words(&command, &reply);
        let (block, key) = (block_name(block_kind), key_words(key));
        println!("  Nexus {nexus} reads {block} ({key}) -> {answer}{decision}");
        match expected {
            Ok(data) => {
                let words = format!("{}, place {}", read_name(data[0]), data[1]);
                self.check(
                    (reply.number, reply.sense, reply.data.as_slice()) == (0, NO_SENSE, &data),
                    &words,
                );
            }
            Err(number) => self.check(is_plain(&reply, number), &expected_words(number)),
        }
        Ok(())
    }
}

fn block_name(block_kind: u8) -> &'static str {
    ["a plain block", "a block encrypted under algorithm 1", "a block encrypted otherwise"]
        .get(usize::from(block_kind))
        .copied()
        .unwrap_or("a block of an unknown kind")
}

fn key_words(key: u8) -> String {
    match key {
        opening_key::MAIN => "the main key opened it".to_string(),
        opening_key::NONE => "no key opened it".to_string(),
        _ => format!("supplemental key {key} opened it"),
    }
}

fn read_name(decision: u8) -> &'static str {
    name_of(&READ, decision).unwrap_or("unknown")
}
