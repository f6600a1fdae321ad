//! The file of outside pages, vectors/pages.txt, and what each page is to come to.

use super::session::{give_record, power_on, security_out};
use crate::answer::{Refused, NO_SENSE};
use crate::answer_words::sense_codes;
use crate::codes::scope;
use crate::hex;
use crate::record::{Kad, Record, Set};
use crate::record_bytes;
use crate::sizes::{KEY_BYTES, PLACES};
use crate::stream::{Command, Reply};

/// The nexus that sends every page of the file.
pub const SENDER: u8 = 7;

/// One page of the file.
#[derive(Clone, Debug)]
pub struct Vector {
    pub name: String,
    pub page: Vec<u8>,
    pub answer: u8,
    /// The faulty byte, of a page that is answered 8.
    pub byte: Option<u16>,
    /// The place and the set that an accepted page leaves there.
    set: Option<(usize, Set)>,
    lock: bool,
}

/// Reads the file; the fault names its block.
pub fn read(text: &str) -> Result<Vec<Vector>, String> {
    let lines: Vec<&str> = text.lines().map(str::trim).filter(|line| !line.starts_with('#')).collect();
    let blocks = lines.split(|line| line.is_empty()).filter(|block| !block.is_empty());
    blocks
        .map(|block| read_block(block).map_err(|fault| format!("block \"{}\": {fault}", block[0])))
        .collect()
}

/// Reads one block of lines `word: value`.
fn read_block(block: &[&str]) -> Result<Vector, String> {
    let mut values: Vec<(&str, String)> = Vec::new();
    for line in block {
        let (word, value) = line.split_once(':').ok_or_else(|| format!("no word in \"{line}\""))?;
        if !["name", "source", "start", "page", "answer", "byte", "set", "u-kad", "a-kad"].contains(&word) {
            return Err(format!("unknown word \"{word}\""));
        }
        match values.iter_mut().find(|(known, _)| *known == word) {
            Some((_, text)) if word == "page" || word == "source" => text.push_str(value),
            Some(_) => return Err(format!("\"{word}\" stands twice")),
            None => values.push((word, value.trim().to_string())),
        }
    }
    let value = |word: &str| {
        let found = values.iter().find(|(known, _)| *known == word).map(|(_, text)| text.as_str());
        found.filter(|text| !text.is_empty()).ok_or_else(|| format!("no \"{word}\""))
    };
    value("source")?;
    if value("start")? != "power-on" {
        return Err("a start other than power-on".to_string());
    }
    let page = bytes(value("page")?)?;
    let answer: u8 = value("answer")?.parse().map_err(|_| "an answer that is no number".to_string())?;
    let byte = match (answer, value("byte")) {
        (8, byte) => Some(byte?.parse().map_err(|_| "a byte that is no number".to_string())?),
        (_, Ok(_)) => return Err("a byte with an answer other than 8".to_string()),
        _ => None,
    };
    let mut vector = Vector { name: value("name")?.to_string(), page, answer, byte, set: None, lock: false };
    if answer == 0 {
        vector.read_set(value("set")?)?;
        if let (Some((_, set)), Ok(data)) = (&mut vector.set, value("u-kad")) {
            set.u_kad = kad(data)?;
        }
        if let (Some((_, set)), Ok(data)) = (&mut vector.set, value("a-kad")) {
            set.a_kad = kad(data)?;
        }
    } else if value("set")? != "none" {
        return Err("a set from a refused page".to_string());
    }
    Ok(vector)
}

/// Bytes in hex with spaces between them.
fn bytes(text: &str) -> Result<Vec<u8>, String> {
    let bytes = |part: &str| hex::read(part).ok_or_else(|| format!("\"{part}\" is no byte"));
    text.split_whitespace().map(bytes).collect::<Result<Vec<_>, _>>().map(|bytes| bytes.concat())
}

/// Key-associated data in hex.
fn kad<const LIMIT: usize>(text: &str) -> Result<Kad<LIMIT>, String> {
    let data = bytes(text)?;
    if data.len() > LIMIT {
        return Err(format!("more than {LIMIT} bytes of key-associated data"));
    }
    Ok(Kad::of(&data))
}

impl Vector {
    /// Reads `place 0, scope 2, encryption 2, ...`; what isn't named is 0.
    fn read_set(&mut self, text: &str) -> Result<(), String> {
        let mut place = 0;
        let mut set = Set { owner: SENDER, ..Set::empty(1) };
        for part in text.split(',') {
            let fault = || format!("\"{}\" is no part of a set", part.trim());
            let (field, number) = part.trim().split_once(' ').ok_or_else(fault)?;
            let number: u8 = number.parse().map_err(|_| fault())?;
            let yes = number == 1;
            match field {
                "place" if usize::from(number) < PLACES => place = usize::from(number),
                "scope" => set.scope = number,
                "lock" => self.lock = yes,
                "encryption" => set.encryption = number,
                "decryption" => set.decryption = number,
                "index" => set.index = number,
                "CEEM" => set.ceem = number,
                "RDMD" => set.rdmd = yes,
                "CKOD" => set.ckod = yes,
                "CKORP" => set.ckorp = yes,
                "CKORL" => set.ckorl = yes,
                "key" if number == 0 => {}
                "key" if usize::from(number) == KEY_BYTES => {
                    let key = self.page.get(20..20 + KEY_BYTES).ok_or_else(fault)?;
                    set.key.copy_from_slice(key);
                }
                _ => return Err(fault()),
            }
        }
        self.set = Some((place, set));
        Ok(())
    }

    /// The record the page is to leave: one draw for an accepted set; the sender is registered in any case.
    fn record(&self) -> Record {
        let mut record = Record::power_on();
        let sender = &mut record.nexuses[usize::from(SENDER)];
        sender.registered = true;
        if let Some((place, set)) = &self.set {
            sender.scope = set.scope;
            sender.lock = self.lock;
            sender.saved_at_lock = if self.lock { set.number } else { 0 };
            sender.last_local = if set.scope == scope::LOCAL { set.number } else { 0 };
            record.counter = set.number;
            record.places[*place] = set.clone();
            record.put_words_right();
        }
        record
    }

    /// Sends the page to a drive after power-on; what differs from the file, if anything.
    pub fn try_on(
        &self,
        mut ask: impl FnMut(&Command) -> Result<Reply, String>,
    ) -> Result<Option<String>, String> {
        if ask(&power_on())?.number != 0 {
            return Ok(Some("power-on isn't answered 0".to_string()));
        }
        let reply = ask(&security_out(SENDER, self.page.clone()))?;
        let refused = Refused::EVERY.into_iter().find(|refused| refused.number() == self.answer);
        let sense = refused.map_or(NO_SENSE, Refused::sense);
        let data = self.byte.map_or(Vec::new(), |byte| byte.to_be_bytes().to_vec());
        if (reply.number, reply.sense, &reply.data) != (self.answer, sense, &data) {
            let (number, sense, data) = (reply.number, sense_codes(reply.sense), reply.data);
            return Ok(Some(format!("answer {number} with sense {sense} and data {data:02X?}")));
        }
        let bytes = ask(&give_record())?.data;
        let expected = record_bytes::give(&self.record());
        if bytes.len() != expected.len() {
            return Ok(Some(format!("a record of {} bytes", bytes.len())));
        }
        let different = (0..bytes.len()).find(|&at| bytes[at] != expected[at]);
        Ok(different.map(|at| format!("record: {} is {:02X}h", record_bytes::field_name(at), bytes[at])))
    }
}
