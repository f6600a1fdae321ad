//! The faulty byte of a page answered 8, in words: its number and the field's name, from the table of docs/FIELDS.md.

use crate::codes::encryption;
use crate::stream::{kind, Command, Reply};
use crate::{descriptors, set_page, status_page};
use std::ops::RangeInclusive;
use std::sync::OnceLock;

/// The document that has the table, and the heading above it.
const DOCUMENT: &str = include_str!("../../docs/FIELDS.md");
const HEADING: &str = "## The table";
/// In the column of bytes: all that stand after the key.
const AFTER_KEY: &str = "after the key";

/// Where the key length stands in a Set Data Encryption page.
const KEY_LENGTH: usize = 18;

/// More descriptors than these no page has without a fault in one of them.
const ORDINALS: [&str; 3] = ["first", "second", "third"];

/// The pages that can be answered 8.
#[derive(Clone, Copy, PartialEq, Eq, Debug)]
pub enum Page {
    SetDataEncryption,
    Status,
}

/// What a row's bytes are counted in.
#[derive(Clone, Copy, PartialEq, Eq, Debug)]
pub enum Part {
    /// The page itself.
    Of(Page),
    /// What stands after the key where no descriptor may stand.
    LeftOver,
    /// A descriptor of either page.
    Descriptor,
}

/// A row of the table.
#[derive(Clone, PartialEq, Eq, Debug)]
pub struct Row {
    pub part: Part,
    pub bytes: RangeInclusive<usize>,
    pub name: &'static str,
}

/// The faulty byte of the page that a command has, in words; nothing where the reply tells none.
pub fn field_of(command: &Command, reply: &Reply) -> Option<String> {
    let byte = faulty_byte(command.kind, reply)?;
    Some(field(page_of(command.kind)?, &command.data, byte))
}

/// The number of the faulty byte in the reply to a kind of command. docs/CONSOLE.md: "OUT, answer 8" and "253, answer 8"
/// have two bytes of data.
pub fn faulty_byte(kind: u8, reply: &Reply) -> Option<u16> {
    page_of(kind)?;
    reply.faulty_byte().and_then(|byte| u16::try_from(byte).ok())
}

/// The page that a kind of command has, if it has one that can be answered 8.
fn page_of(kind: u8) -> Option<Page> {
    match kind {
        kind::OUT => Some(Page::SetDataEncryption),
        kind::READ_STATUS => Some(Page::Status),
        _ => None,
    }
}

/// A byte of a page in words, whatever the page's bytes are.
pub fn field(page: Page, bytes: &[u8], byte: u16) -> String {
    format!("byte {byte}, {}", name_at(page, bytes, usize::from(byte)))
}

/// The name of the field in which a byte stands.
fn name_at(page: Page, bytes: &[u8], byte: usize) -> String {
    if byte >= bytes.len() {
        return "past the page's end".to_string();
    }
    let list = list_start(page, bytes);
    let named = match byte.checked_sub(list) {
        None => name_of(Part::Of(page), byte).map(str::to_string),
        Some(past) if page == Page::SetDataEncryption && !has_list(bytes) => {
            name_of(Part::LeftOver, past).map(str::to_string)
        }
        Some(past) => name_in_list(&bytes[list..], past),
    };
    named.unwrap_or_else(|| "which no rule points to".to_string())
}

/// The byte after the page's own fields and, in a Set Data Encryption page, its key.
fn list_start(page: Page, bytes: &[u8]) -> usize {
    match (page, number_at(bytes, KEY_LENGTH)) {
        (Page::SetDataEncryption, Some(length)) => set_page::HEADER_BYTES + length,
        (Page::SetDataEncryption, None) => set_page::HEADER_BYTES,
        (Page::Status, _) => status_page::HEADER_BYTES,
    }
}

/// Whether descriptors may stand after the key: SDK is 0 and the encryption mode ENCRYPT.
fn has_list(bytes: &[u8]) -> bool {
    let has_sdk = bytes.get(5).is_some_and(|byte| byte & 0x08 != 0);
    !has_sdk && bytes.get(6) == Some(&encryption::ENCRYPT)
}

/// The name of a byte of a list of descriptors, and of which of them it is.
fn name_in_list(list: &[u8], byte: usize) -> Option<String> {
    let (mut before, mut start) = (0, 0);
    while let Some(length) = number_at(list, start + 2) {
        let end = start + descriptors::HEADER_BYTES + length;
        if byte < end {
            break;
        }
        (before, start) = (before + 1, end);
    }
    let name = name_of(Part::Descriptor, byte - start)?;
    Some(match ORDINALS.get(before) {
        Some(ordinal) => format!("{name} of the {ordinal} descriptor"),
        None => format!("{name} of descriptor number {}", before + 1),
    })
}

/// A big-endian number of two bytes, where both are there.
fn number_at(bytes: &[u8], at: usize) -> Option<usize> {
    let number = bytes.get(at..)?.first_chunk()?;
    Some(usize::from(u16::from_be_bytes(*number)))
}

/// The name that the table has for a byte of a part.
fn name_of(part: Part, byte: usize) -> Option<&'static str> {
    table().iter().find(|row| row.part == part && row.bytes.contains(&byte)).map(|row| row.name)
}

/// The table of docs/FIELDS.md.
pub fn table() -> &'static [Row] {
    static TABLE: OnceLock<Vec<Row>> = OnceLock::new();
    TABLE.get_or_init(|| read(DOCUMENT).expect("a test reads the same table"))
}

/// Reads the table of a document; what is wrong otherwise.
pub fn read(document: &'static str) -> Result<Vec<Row>, String> {
    let section = document.split_once(HEADING).ok_or_else(|| format!("there is no heading `{HEADING}`"))?.1;
    let section = section.split_once("\n## ").map_or(section, |(section, _)| section);
    let lines = section.lines().filter(|line| line.starts_with('|'));
    let rows: Vec<Row> = lines
        .skip(2)
        .map(|line| row(line).ok_or_else(|| format!("`{line}` is no row of the table")))
        .collect::<Result<_, String>>()?;
    if rows.is_empty() {
        return Err(format!("no table stands below `{HEADING}`"));
    }
    Ok(rows)
}

/// A row: page, bytes, name, and what is wrong, which is for the reader alone.
fn row(line: &'static str) -> Option<Row> {
    let cells: Vec<&str> = line.trim_matches('|').split('|').map(str::trim).collect();
    let &[page, bytes, name, _] = cells.as_slice() else { return None };
    let part = match (page, bytes) {
        ("0010h", AFTER_KEY) => Part::LeftOver,
        ("0010h", _) => Part::Of(Page::SetDataEncryption),
        ("0020h", _) => Part::Of(Page::Status),
        ("descriptor", _) => Part::Descriptor,
        _ => return None,
    };
    let bytes = if part == Part::LeftOver { 0..=usize::MAX } else { range(bytes)? };
    (!name.is_empty()).then_some(Row { part, bytes, name })
}

/// One byte, or the first and the last of several.
fn range(bytes: &str) -> Option<RangeInclusive<usize>> {
    let (first, last) = bytes.split_once('–').unwrap_or((bytes, bytes));
    let range = first.parse().ok()?..=last.parse().ok()?;
    (!range.is_empty()).then_some(range)
}
