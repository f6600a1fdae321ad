//! The calls in words: a line for each event.

use super::bytes;
use super::set_page;
use super::words::Words;
use crate::codes::opening_key;
use crate::names::{code_of, name_of, BLOCK_KINDS, CALLS};
use crate::recording::{fields_of, Event};
use crate::stream::kind;

/// The words of a volume that supports algorithm 1 and of one that doesn't.
const SUPPORTED: &str = "supported";
const NOT_SUPPORTED: &str = "not supported";

/// Names that a script may have for calls beside the usual ones.
const OTHER_NAMES: [(&str, u8); 3] =
    [("power on", kind::POWER_ON), ("security protocol in", kind::IN), ("security protocol out", kind::OUT)];

/// Where the page of an OUT event is said.
#[derive(Clone, PartialEq, Eq, Debug)]
pub enum Page {
    /// Just after the page bytes so far.
    Here(Vec<u8>),
    /// Somewhere in the page bytes.
    At { offset: u16, length: u16 },
}

/// A line that says something.
pub enum Line {
    /// An event, and the page of an OUT; its offset and length are still open.
    Call(Event, Option<Page>),
    /// Page bytes on a line of their own.
    PageBytes(Vec<u8>),
}

/// The event in words; `page` has those for the page of an OUT.
pub fn words(event: &Event, page: &str) -> String {
    let (call, nexus, argument) = (CALLS[usize::from(event.kind)], event.nexus, event.argument);
    match event.kind {
        kind::IN => format!("{call} nexus {nexus} page {argument:04X}h"),
        kind::OUT => format!("{call} nexus {nexus} page {argument:04X}h {page}"),
        kind::WRITE if argument == 0 => format!("{call} nexus {nexus} {NOT_SUPPORTED}"),
        kind::WRITE => format!("{call} nexus {nexus} {SUPPORTED}"),
        kind::NEXUS_RESERVATION_LOSS | kind::PREEMPT => format!("{call} nexus {nexus}"),
        kind::VENDOR_RELEASE => format!("{call} place {argument}"),
        kind::READ => format!("{call} nexus {nexus} {}", block_words(argument.to_be_bytes())),
        _ => call.to_string(),
    }
}

/// A page by its fields or its bytes; `list` gives the words for a list of bytes.
pub fn page_words(page: &[u8], list: fn(&[u8]) -> String) -> String {
    set_page::words(page, list).unwrap_or_else(|| format!("bytes {}", list(page)))
}

/// A read's block kind and key.
fn block_words([block_kind, key]: [u8; 2]) -> String {
    let block_kind =
        name_of(&BLOCK_KINDS, block_kind).map_or_else(|| format!("kind {block_kind}"), str::to_string);
    let key = match key {
        opening_key::MAIN => "main".to_string(),
        opening_key::NONE => "none".to_string(),
        number => number.to_string(),
    };
    format!("{block_kind} key {key}")
}

/// Reads a line; nothing where it has no words.
pub fn read(line: &str) -> Result<Option<Line>, String> {
    let mut words = Words::of(line);
    if words.peek().is_none() {
        return Ok(None);
    }
    let line = if words.take("page bytes") {
        Line::PageBytes(bytes::read(&mut words)?)
    } else {
        read_call(&mut words)?
    };
    words.end()?;
    Ok(Some(line))
}

/// Reads an event.
fn read_call(words: &mut Words) -> Result<Line, String> {
    let kind = read_name(words)?;
    let mut event = Event { kind, ..Event::default() };
    if fields_of(kind).is_some_and(|fields| fields.nexus) {
        words.expect("nexus")?;
        event.nexus = words.byte("nexus", u8::MAX)?;
    }
    let mut page = None;
    match kind {
        kind::IN | kind::OUT => {
            words.expect("page")?;
            event.argument = words.page_code()?;
            if kind == kind::OUT {
                page = Some(read_page(words)?);
            }
        }
        kind::WRITE => event.argument = read_support(words)?,
        kind::VENDOR_RELEASE => {
            words.expect("place")?;
            event.argument = words.number("place", u16::MAX)?;
        }
        kind::READ => event.argument = read_block(words)?,
        _ => {}
    }
    Ok(Line::Call(event, page))
}

/// The kind of call that the line begins with.
fn read_name(words: &mut Words) -> Result<u8, String> {
    let named = CALLS.iter().position(|name| words.take(name)).map(|kind| kind as u8);
    let other = || OTHER_NAMES.iter().find(|(name, _)| words.take(name)).map(|&(_, kind)| kind);
    named.or_else(other).ok_or_else(|| words.wrong(&format!("a call ({}) or `page bytes`", CALLS.join(", "))))
}

/// The page of an OUT: by its bytes, by its offset and length, or by its fields.
fn read_page(words: &mut Words) -> Result<Page, String> {
    if words.take("bytes") {
        return bytes::read(words).map(Page::Here);
    }
    if words.take("at") {
        let offset = words.number("page offset", u16::MAX)?;
        words.expect("length")?;
        return Ok(Page::At { offset, length: words.number("page length", u16::MAX)? });
    }
    set_page::read(words).map(Page::Here)
}

/// A write's support flag.
fn read_support(words: &mut Words) -> Result<u16, String> {
    if words.take(SUPPORTED) {
        Ok(1)
    } else if words.take(NOT_SUPPORTED) {
        Ok(0)
    } else {
        Err(words.wrong("`supported` or `not supported`"))
    }
}

/// A read's argument: "block kind times 256 plus key".
fn read_block(words: &mut Words) -> Result<u16, String> {
    let block_kind = match words.peek().and_then(|word| code_of(&BLOCK_KINDS, word)) {
        Some(code) => {
            words.skip();
            code
        }
        None if words.take("kind") => words.byte("block kind", u8::MAX)?,
        None => return Err(words.wrong("a block kind (plain, encrypted, otherwise, or `kind` and a number)")),
    };
    words.expect("key")?;
    let key = if words.take("main") {
        opening_key::MAIN
    } else if words.take("none") {
        opening_key::NONE
    } else {
        words.byte("key", u8::MAX)?
    };
    Ok(u16::from_be_bytes([block_kind, key]))
}
