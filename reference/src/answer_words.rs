//! Answers in words: one table for every program, and SPC-4's names of the sense.

use crate::answer::{Sense, NO_SENSE};

/// What an answer means: 01's column "When", with a word more where a reader hasn't 01 at hand; the like for 14 to 17,
/// and for what a batch is refused with.
pub fn when(number: u8) -> &'static str {
    match number {
        0 => "done",
        1 => "record not well formed",
        2 => "nexus above 15",
        3 => "not carried out: parameters changed by another nexus",
        4 => "not carried out: parameters changed by a vendor event",
        5 => "protocol not 20h",
        6 => "page not supported",
        7 => "page length wrong",
        8 => "field of the page wrong",
        9 => "no room for a fifth supplemental key",
        10 => "no place for a LOCAL set",
        11 => "locked, and the key instance has changed",
        12 => "parameters not usable on this volume",
        13 => "place above 4",
        14 => "no such block kind, or no such key in the set",
        15 => "block can't be decrypted",
        16 => "plain block while decrypting",
        17 => "no key opened the block",
        18 => "more than 64 events, or a buffer too short for their answers",
        22 => "events with a wrong field or page, or a part event",
        255 => "unknown kind of command",
        _ => "not an answer of 01 or 02",
    }
}

/// What an answer means and, where it is known, the wrong field as `field_words` tells it.
fn meaning(number: u8, field: Option<&str>) -> String {
    let field = field.map_or(String::new(), |field| format!(": {field}"));
    when(number).to_string() + &field
}

/// An answer on a line: its number, its meaning with the wrong field, and its sense where there is one.
pub fn short(number: u8, sense: Sense, field: Option<&str>) -> String {
    let words = format!("{number} {}", meaning(number, field));
    if sense == NO_SENSE {
        words
    } else {
        format!("{words} ({})", sense_codes(sense))
    }
}

/// An answer with its meaning and the wrong field, and below it its sense with SPC-4's names.
pub fn long(number: u8, sense: Sense, field: Option<&str>) -> String {
    let words = format!("answer {number}, {}", meaning(number, field));
    if sense == NO_SENSE {
        return words;
    }
    format!("{words}\n    {}", sense_words(sense))
}

/// A sense with SPC-4's names.
pub fn sense_words(sense: Sense) -> String {
    let [key, asc, ascq] = sense;
    format!("sense {}: {}, {}", sense_codes(sense), sense_key_name(key), sense_name(asc, ascq))
}

/// Sense key, ASC and ASCQ as 01 writes them: 7/2A/13.
pub fn sense_codes([key, asc, ascq]: Sense) -> String {
    format!("{key:X}/{asc:02X}/{ascq:02X}")
}

/// SPC-4's names of the sense keys.
fn sense_key_name(key: u8) -> &'static str {
    match key {
        5 => "ILLEGAL REQUEST",
        6 => "UNIT ATTENTION",
        7 => "DATA PROTECT",
        _ => "a sense key documents 01 and 02 don't use",
    }
}

/// SPC-4's names of the additional sense codes.
fn sense_name(asc: u8, ascq: u8) -> &'static str {
    match (asc, ascq) {
        (0x1A, 0x00) => "PARAMETER LIST LENGTH ERROR",
        (0x24, 0x00) => "INVALID FIELD IN CDB",
        (0x26, 0x00) => "INVALID FIELD IN PARAMETER LIST",
        (0x2A, 0x11) => "DATA ENCRYPTION PARAMETERS CHANGED BY ANOTHER I_T NEXUS",
        (0x2A, 0x12) => "DATA ENCRYPTION PARAMETERS CHANGED BY VENDOR SPECIFIC EVENT",
        (0x2A, 0x13) => "DATA ENCRYPTION KEY INSTANCE COUNTER HAS CHANGED",
        (0x55, 0x03) => "INSUFFICIENT RESOURCES",
        (0x55, 0x08) => "MAXIMUM NUMBER OF SUPPLEMENTAL DECRYPTION KEYS EXCEEDED",
        (0x74, 0x01) => "UNABLE TO DECRYPT DATA",
        (0x74, 0x02) => "UNENCRYPTED DATA ENCOUNTERED WHILE DECRYPTING",
        (0x74, 0x03) => "INCORRECT DATA ENCRYPTION KEY",
        (0x74, 0x07) => "ENCRYPTION PARAMETERS NOT USEABLE",
        _ => "a code documents 01 and 02 don't use",
    }
}
