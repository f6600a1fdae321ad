//! The record's bytes, as docs/CONSOLE.md, "The record", orders them.

use crate::record::{Kad, Nexus, Record, Set};
use crate::sizes::{A_KAD_BYTES, KEY_BYTES, NEXUSES, PLACES, SUPPLEMENTAL_KEYS, U_KAD_BYTES};

/// The counter's bytes.
pub const COUNTER_BYTES: usize = 4;
/// One place: nine bytes to the number, five to CKORL, keys with their count, two lengths with their data.
pub const PLACE_BYTES: usize =
    9 + 5 + KEY_BYTES + 1 + SUPPLEMENTAL_KEYS * KEY_BYTES + 1 + U_KAD_BYTES + 1 + A_KAD_BYTES;
/// One nexus: scope, lock, two numbers, three marks.
pub const NEXUS_BYTES: usize = 2 + 4 + 4 + 3;
/// One place's selection word.
pub const WORD_BYTES: usize = 8;
/// Where the words start: after the counter, the places and the nexuses.
pub const WORDS_START: usize = COUNTER_BYTES + PLACES * PLACE_BYTES + NEXUSES * NEXUS_BYTES;
/// The whole record: 1,357 bytes.
pub const RECORD_BYTES: usize = WORDS_START + PLACES * WORD_BYTES;

/// Gives the record's bytes (docs/CONSOLE.md: 255, "give the device record").
pub fn give(record: &Record) -> Vec<u8> {
    let mut bytes = Vec::with_capacity(RECORD_BYTES);
    bytes.extend(record.counter.to_be_bytes());
    for set in &record.places {
        give_place(set, &mut bytes);
    }
    for nexus in &record.nexuses {
        give_nexus(nexus, &mut bytes);
    }
    for word in &record.selection_words {
        bytes.extend(word.to_be_bytes());
    }
    bytes
}

/// docs/CONSOLE.md: the table of a set.
fn give_place(set: &Set, bytes: &mut Vec<u8>) {
    bytes.extend([set.owner, set.scope, set.encryption, set.decryption, set.index]);
    bytes.extend(set.number.to_be_bytes());
    bytes.push(set.ceem);
    bytes.extend([set.rdmd, set.ckod, set.ckorp, set.ckorl].map(u8::from));
    bytes.extend(set.key);
    bytes.push(set.supplemental_count);
    bytes.extend(set.supplemental_keys.as_flattened());
    bytes.push(set.u_kad.length);
    bytes.extend(set.u_kad.bytes);
    bytes.push(set.a_kad.length);
    bytes.extend(set.a_kad.bytes);
}

/// docs/CONSOLE.md: the table of a nexus.
fn give_nexus(nexus: &Nexus, bytes: &mut Vec<u8>) {
    bytes.extend([nexus.scope, u8::from(nexus.lock)]);
    bytes.extend(nexus.saved_at_lock.to_be_bytes());
    bytes.extend(nexus.last_local.to_be_bytes());
    bytes.extend(
        [nexus.registered, nexus.changed_by_another_nexus, nexus.changed_by_vendor_event].map(u8::from),
    );
}

/// Loads a record; nothing for "Data of another length, or with a yes/no byte above 1" (docs/CONSOLE.md).
pub fn load(bytes: &[u8]) -> Option<Record> {
    if bytes.len() != RECORD_BYTES {
        return None;
    }
    let mut reader = Reader { rest: bytes };
    let mut record = Record::power_on();
    record.counter = reader.number();
    for set in &mut record.places {
        *set = load_place(&mut reader)?;
    }
    for nexus in &mut record.nexuses {
        *nexus = load_nexus(&mut reader)?;
    }
    for word in &mut record.selection_words {
        *word = u64::from_be_bytes(reader.take());
    }
    Some(record)
}

/// One place, in the order of `give_place`.
fn load_place(reader: &mut Reader) -> Option<Set> {
    let [owner, scope, encryption, decryption, index] = reader.take();
    let number = reader.number();
    let [ceem] = reader.take();
    let (rdmd, ckod, ckorp, ckorl) =
        (reader.yes_or_no()?, reader.yes_or_no()?, reader.yes_or_no()?, reader.yes_or_no()?);
    let key = reader.take();
    let [supplemental_count] = reader.take();
    let supplemental_keys = [reader.take(), reader.take(), reader.take(), reader.take()];
    let u_kad = reader.kad();
    let a_kad = reader.kad();
    Some(Set {
        owner,
        scope,
        encryption,
        decryption,
        index,
        number,
        ceem,
        rdmd,
        ckod,
        ckorp,
        ckorl,
        key,
        supplemental_count,
        supplemental_keys,
        u_kad,
        a_kad,
    })
}

/// One nexus, in the order of `give_nexus`.
fn load_nexus(reader: &mut Reader) -> Option<Nexus> {
    let [scope] = reader.take();
    Some(Nexus {
        scope,
        lock: reader.yes_or_no()?,
        saved_at_lock: reader.number(),
        last_local: reader.number(),
        registered: reader.yes_or_no()?,
        changed_by_another_nexus: reader.yes_or_no()?,
        changed_by_vendor_event: reader.yes_or_no()?,
    })
}

/// Takes the record's parts from the front of what is left of its bytes.
struct Reader<'bytes> {
    rest: &'bytes [u8],
}

impl Reader<'_> {
    /// The next bytes.
    fn take<const COUNT: usize>(&mut self) -> [u8; COUNT] {
        let (taken, rest) = self.rest.split_first_chunk().expect("the record's length was checked");
        self.rest = rest;
        *taken
    }

    /// docs/CONSOLE.md: "Numbers are big-endian."
    fn number(&mut self) -> u32 {
        u32::from_be_bytes(self.take())
    }

    /// A length byte and its data.
    fn kad<const LIMIT: usize>(&mut self) -> Kad<LIMIT> {
        let [length] = self.take();
        Kad { length, bytes: self.take() }
    }

    /// docs/CONSOLE.md: "A yes is 1 and a no is 0."
    fn yes_or_no(&mut self) -> Option<bool> {
        match self.take() {
            [0] => Some(false),
            [1] => Some(true),
            _ => None,
        }
    }
}

/// The name of a place's word among the fields.
pub const SELECTION_WORD: &str = "selection word";

/// The name of the field that holds a byte of the record, for reports.
pub fn field_name(offset: usize) -> String {
    const PLACE_FIELDS: [(&str, usize); 18] = [
        ("owner", 1),
        ("scope", 1),
        ("encryption", 1),
        ("decryption", 1),
        ("index", 1),
        ("number", 4),
        ("CEEM", 1),
        ("RDMD", 1),
        ("CKOD", 1),
        ("CKORP", 1),
        ("CKORL", 1),
        ("key", KEY_BYTES),
        ("supplemental count", 1),
        ("supplemental keys", SUPPLEMENTAL_KEYS * KEY_BYTES),
        ("U-KAD length", 1),
        ("U-KAD", U_KAD_BYTES),
        ("A-KAD length", 1),
        ("A-KAD", A_KAD_BYTES),
    ];
    const NEXUS_FIELDS: [(&str, usize); 7] = [
        ("scope", 1),
        ("lock", 1),
        ("number saved at lock", 4),
        ("number of last LOCAL set", 4),
        ("registered", 1),
        ("flag \"another nexus\"", 1),
        ("flag \"vendor event\"", 1),
    ];
    if offset < COUNTER_BYTES {
        return "counter".to_string();
    }
    let offset = offset - COUNTER_BYTES;
    if offset < PLACES * PLACE_BYTES {
        return format!("place {}, {}", offset / PLACE_BYTES, field_in(&PLACE_FIELDS, offset % PLACE_BYTES));
    }
    let offset = offset - PLACES * PLACE_BYTES;
    if offset < NEXUSES * NEXUS_BYTES {
        return format!("nexus {}, {}", offset / NEXUS_BYTES, field_in(&NEXUS_FIELDS, offset % NEXUS_BYTES));
    }
    let offset = offset - NEXUSES * NEXUS_BYTES;
    format!("place {}, {SELECTION_WORD}", offset / WORD_BYTES)
}

/// The field of a list of names and sizes that covers an offset.
fn field_in(fields: &[(&'static str, usize)], mut offset: usize) -> &'static str {
    for &(name, size) in fields {
        if offset < size {
            return name;
        }
        offset -= size;
    }
    "beyond the record"
}
