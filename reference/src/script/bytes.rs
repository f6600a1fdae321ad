//! Bytes in a script: two hex digits each, and runs as `A7*32`.

use super::words::{number, Words};
use crate::hex;
use crate::recording::LONGEST;

/// The word for no bytes.
const EMPTY: &str = "empty";
/// So many bytes alike are shown as a run.
const RUN: usize = 3;
/// A list of more words than these is shortened, to those.
const LONG: usize = 8;
const SHORTENED: usize = 4;

/// The words for bytes: one for each byte or run.
pub fn words(bytes: &[u8]) -> Vec<String> {
    let alike = bytes.chunk_by(|left, right| left == right);
    alike.flat_map(|run| if run.len() < RUN { hex::words(run) } else { vec![run_word(run)] }).collect()
}

/// The word for bytes that are alike.
fn run_word(run: &[u8]) -> String {
    format!("{:02X}*{}", run[0], run.len())
}

/// The whole list.
pub fn text(bytes: &[u8]) -> String {
    if bytes.is_empty() {
        EMPTY.to_string()
    } else {
        words(bytes).join(" ")
    }
}

/// The list for a reader who knows the recording: a long one gives its first words and its count of bytes.
pub fn shortened(bytes: &[u8]) -> String {
    let words = words(bytes);
    if words.len() <= LONG {
        text(bytes)
    } else {
        format!("{} .. ({} bytes)", words[..SHORTENED].join(" "), bytes.len())
    }
}

/// Reads a list: the words that are bytes, one at least, or `empty`.
pub fn read(list: &mut Words) -> Result<Vec<u8>, String> {
    if list.take(EMPTY) {
        return Ok(Vec::new());
    }
    let mut bytes = Vec::new();
    while let Some(more) = list.peek().map(word_bytes).transpose()?.flatten() {
        bytes.extend(more);
        if bytes.len() > LONGEST {
            return Err(format!("more bytes than the {LONGEST} of a whole recording"));
        }
        list.skip();
    }
    if bytes.is_empty() {
        return Err(list.wrong("a byte of two hex digits, or `empty`,"));
    }
    Ok(bytes)
}

/// The bytes of a word: hex digits in pairs, and how often they stand there; nothing for any other word.
fn word_bytes(word: &str) -> Result<Option<Vec<u8>>, String> {
    let (digits, count) = word.split_once('*').map_or((word, None), |(digits, count)| (digits, Some(count)));
    if digits.is_empty() || !digits.bytes().all(|digit| digit.is_ascii_hexdigit()) {
        return Ok(None);
    }
    if digits.len() % 2 != 0 {
        return Err(format!("`{word}` is no byte, which has two hex digits"));
    }
    let count = count.map_or(Some(1), number).filter(|&count| count > 0);
    let count = count.ok_or_else(|| format!("`{word}` is no run, as `A7*32` is"))?;
    let bytes = hex::read(digits).expect("these are hex digits in pairs");
    if count.saturating_mul(bytes.len() as u64) > LONGEST as u64 {
        return Err(format!("`{word}` has more bytes than the {LONGEST} of a whole recording"));
    }
    Ok(Some(bytes.repeat(count as usize)))
}
