//! The Set Data Encryption page in words: its fields, with those left out that have their usual value.

use super::bytes;
use super::words::Words;
use crate::codes::{encryption, scope, ALGORITHM, LARGEST_CEEM};
use crate::comparison::page_builder::SetPage;
use crate::descriptors::{self, A_KAD_TYPE, U_KAD_TYPE};
use crate::names::{code_of, name_of, DECRYPTION_MODES, ENCRYPTION_MODES, SCOPES};
use crate::set_page::HEADER_BYTES;

/// The largest value of the three bits of SCOPE and of the two bits of RDMC.
const LARGEST_SCOPE: u8 = 7;
const LARGEST_RDMC: u8 = 3;

/// A page that words can say: key-associated data of each type at most once, U-KAD first.
struct Said {
    page: SetPage,
    u_kad: Option<Vec<u8>>,
    a_kad: Option<Vec<u8>>,
    /// The fields that a script has named.
    fields: Vec<&'static str>,
}

/// The page in words, where they make the very same bytes. `list` gives the words for a list of bytes.
pub fn words(page: &[u8], list: fn(&[u8]) -> String) -> Option<String> {
    Said::of(page).filter(|said| said.bytes() == page).map(|said| said.words(list))
}

/// The page that the words up to the line's end say.
pub fn read(words: &mut Words) -> Result<Vec<u8>, String> {
    let mut said = Said::nothing();
    while words.peek().is_some() {
        said.read_field(words)?;
    }
    said.has_all()?;
    Ok(said.bytes())
}

impl Said {
    /// Every field with its usual value.
    fn nothing() -> Said {
        let page = SetPage {
            scope: scope::PUBLIC,
            lock: false,
            ceem: 0,
            rdmc: 0,
            sdk: false,
            ckod: false,
            ckorp: false,
            ckorl: false,
            encryption: encryption::DISABLE,
            decryption: 0,
            algorithm: ALGORITHM,
            key: Vec::new(),
            list: Vec::new(),
        };
        Said { page, u_kad: None, a_kad: None, fields: Vec::new() }
    }

    /// The fields of a page whose key is whole. What words don't say is left out, so the bytes may differ.
    fn of(page: &[u8]) -> Option<Said> {
        let header = page.get(..HEADER_BYTES)?;
        let key_end = HEADER_BYTES + usize::from(u16::from_be_bytes([header[18], header[19]]));
        let key = page.get(HEADER_BYTES..key_end)?.to_vec();
        let mut list = &page[key_end..];
        let (u_kad, a_kad) = (take_kad(&mut list, U_KAD_TYPE), take_kad(&mut list, A_KAD_TYPE));
        let bit = |at: usize, bit: u8| header[at] >> bit & 1 == 1;
        let page = SetPage {
            scope: header[4] >> 5,
            lock: bit(4, 0),
            ceem: header[5] >> 6,
            rdmc: header[5] >> 4 & 3,
            sdk: bit(5, 3),
            ckod: bit(5, 2),
            ckorp: bit(5, 1),
            ckorl: bit(5, 0),
            encryption: header[6],
            decryption: header[7],
            algorithm: header[8],
            key,
            list: Vec::new(),
        };
        Some(Said { page, u_kad, a_kad, fields: Vec::new() })
    }

    /// The page's bytes.
    fn bytes(&self) -> Vec<u8> {
        let u_kad = self.u_kad.as_ref().map(|data| descriptor(U_KAD_TYPE, data));
        let a_kad = self.a_kad.as_ref().map(|data| descriptor(A_KAD_TYPE, data));
        let list = [u_kad.unwrap_or_default(), a_kad.unwrap_or_default()].concat();
        SetPage { list, ..self.page.clone() }.bytes()
    }

    /// The page's words in their order.
    fn words(&self, list: fn(&[u8]) -> String) -> String {
        let page = &self.page;
        let mut words = vec![named(&SCOPES, "scope", page.scope)];
        if self.has_modes() {
            words.push(named(&ENCRYPTION_MODES, "encryption", page.encryption));
            words.push(named(&DECRYPTION_MODES, "decryption", page.decryption));
        }
        let mut put = |unusual: bool, word: String| words.extend(unusual.then_some(word));
        put(page.lock, "lock".to_string());
        put(page.ceem != 0, format!("ceem {:02b}b", page.ceem));
        put(page.rdmc != 0, format!("rdmc {:02b}b", page.rdmc));
        put(page.sdk, "sdk".to_string());
        put(page.ckod, "ckod".to_string());
        put(page.ckorp, "ckorp".to_string());
        put(page.ckorl, "ckorl".to_string());
        put(page.algorithm != ALGORITHM, format!("algorithm {}", page.algorithm));
        put(!page.key.is_empty(), format!("key {}", list(&page.key)));
        words.extend(self.u_kad.as_ref().map(|data| format!("u-kad {}", list(data))));
        words.extend(self.a_kad.as_ref().map(|data| format!("a-kad {}", list(data))));
        words.join(" ")
    }

    /// A PUBLIC page whose modes are both 0 is said without them.
    fn has_modes(&self) -> bool {
        (self.page.scope, self.page.encryption, self.page.decryption) != (scope::PUBLIC, 0, 0)
    }

    /// Reads a field, whichever the next word names.
    fn read_field(&mut self, words: &mut Words) -> Result<(), String> {
        let word = words.peek().unwrap_or_default().to_string();
        if let Some(code) = code_of(&SCOPES, &word) {
            words.skip();
            self.page.scope = self.once("scope", code)?;
        } else if let Some(mode) = self.encryption_mode(&word) {
            words.skip();
            self.page.encryption = self.once("encryption mode", mode)?;
        } else if let Some(mode) = code_of(&DECRYPTION_MODES, &word) {
            words.skip();
            self.page.decryption = self.once("decryption mode", mode)?;
        } else {
            self.read_named(&word, words)?;
        }
        Ok(())
    }

    /// A bare word for an encryption mode; `disable` is one where no encryption mode is said before it.
    fn encryption_mode(&self, word: &str) -> Option<u8> {
        let mode = code_of(&ENCRYPTION_MODES, word)?;
        (mode != encryption::DISABLE || !self.fields.contains(&"encryption mode")).then_some(mode)
    }

    /// Reads a field that has its name before its value, or is a bit.
    fn read_named(&mut self, word: &str, words: &mut Words) -> Result<(), String> {
        let no_field = words.wrong("a field of a Set Data Encryption page, `bytes` or `at`");
        words.skip();
        match word {
            "scope" => self.page.scope = self.once("scope", code(&SCOPES, LARGEST_SCOPE, word, words)?)?,
            "encryption" => {
                let mode = code(&ENCRYPTION_MODES, u8::MAX, "encryption mode", words)?;
                self.page.encryption = self.once("encryption mode", mode)?;
            }
            "decryption" => {
                let mode = code(&DECRYPTION_MODES, u8::MAX, "decryption mode", words)?;
                self.page.decryption = self.once("decryption mode", mode)?;
            }
            "lock" => self.page.lock = self.once("lock", true)?,
            "ceem" => self.page.ceem = self.once("ceem", bits("ceem", LARGEST_CEEM, words)?)?,
            "rdmc" => self.page.rdmc = self.once("rdmc", bits("rdmc", LARGEST_RDMC, words)?)?,
            "sdk" => self.page.sdk = self.once("sdk", true)?,
            "ckod" => self.page.ckod = self.once("ckod", true)?,
            "ckorp" => self.page.ckorp = self.once("ckorp", true)?,
            "ckorl" => self.page.ckorl = self.once("ckorl", true)?,
            "algorithm" => {
                self.page.algorithm = self.once("algorithm", words.byte("algorithm index", u8::MAX)?)?
            }
            "key" => self.page.key = self.once("key", bytes::read(words)?)?,
            "u-kad" => self.u_kad = self.once("u-kad", Some(bytes::read(words)?))?,
            "a-kad" => self.a_kad = self.once("a-kad", Some(bytes::read(words)?))?,
            _ => return Err(no_field),
        }
        Ok(())
    }

    /// A field's value, where the field is named for the first time.
    fn once<Value>(&mut self, field: &'static str, value: Value) -> Result<Value, String> {
        if self.fields.contains(&field) {
            return Err(format!("the {field} is said twice"));
        }
        self.fields.push(field);
        Ok(value)
    }

    /// A page has a scope, and both modes or, where it is PUBLIC, neither.
    fn has_all(&self) -> Result<(), String> {
        let is_said = |field: &str| self.fields.contains(&field);
        if !is_said("scope") {
            return Err("the page has no scope: public, local or all".to_string());
        }
        let modes = [is_said("encryption mode"), is_said("decryption mode")];
        match modes {
            [true, true] => Ok(()),
            [false, false] if self.page.scope == scope::PUBLIC => Ok(()),
            [false, _] => Err("the page has no encryption mode: disable, external or encrypt".to_string()),
            _ => Err("the page has no decryption mode: disable, raw, decrypt or mixed".to_string()),
        }
    }
}

/// The name of a code in small letters, or its field and number.
fn named(names: &[&'static str], field: &str, code: u8) -> String {
    name_of(names, code).map_or_else(|| format!("{field} {code}"), str::to_ascii_lowercase)
}

/// A code by its name or number.
fn code(names: &[&str], limit: u8, what: &str, words: &mut Words) -> Result<u8, String> {
    match words.peek().and_then(|word| code_of(names, word)) {
        Some(code) => {
            words.skip();
            Ok(code)
        }
        None => words.byte(what, limit),
    }
}

/// The value of two bits; `10` is more often meant as 10b than as ten.
fn bits(what: &str, limit: u8, words: &mut Words) -> Result<u8, String> {
    words.byte(what, limit).map_err(|fault| format!("{fault} (in binary: 00b, 01b, 10b, 11b)"))
}

/// One descriptor: "type, a zero byte, two bytes of length, data".
fn descriptor(kind: u8, data: &[u8]) -> Vec<u8> {
    [&[kind, 0], &(data.len() as u16).to_be_bytes()[..], data].concat()
}

/// Takes the data of a descriptor of this type from the list, if it stands next and is whole.
fn take_kad(list: &mut &[u8], kind: u8) -> Option<Vec<u8>> {
    let header = list.get(..descriptors::HEADER_BYTES).filter(|header| header[0] == kind)?;
    let end = descriptors::HEADER_BYTES + usize::from(u16::from_be_bytes([header[2], header[3]]));
    let data = list.get(descriptors::HEADER_BYTES..end)?;
    *list = &list[end..];
    Some(data.to_vec())
}
