//! 02, request 12: a damaged file as salvage goes by it. Of its header the stored page offset alone is believed.

use crate::recording::{whole_events, Event, Header, EVENT_BYTES, HEADER_BYTES, LONGEST};

/// "write nothing and say 21".
pub const UNSALVAGEABLE: u8 = 21;

/// Why a file can't be salvaged.
#[derive(Clone, Copy, PartialEq, Eq, PartialOrd, Ord, Debug)]
pub enum Cause {
    /// "the file is shorter than 8 bytes"
    Under8Bytes,
    /// "or longer than 65,535"
    Above65535Bytes,
    /// "the stored page offset isn't 8 plus a multiple of 8"
    OffsetBetweenEvents,
    /// "or lies past the file"
    OffsetPastFile,
}

/// Why a file can't be salvaged, by everything that is the case; nothing where it can be. A file under 8 bytes has no
/// stored page offset.
pub fn causes(file: &[u8]) -> Vec<Cause> {
    let Some(header) = Header::read(file) else { return vec![Cause::Under8Bytes] };
    let offset = usize::from(header.page_bytes);
    let after_header = offset.checked_sub(HEADER_BYTES);
    let every = [
        (Cause::Above65535Bytes, file.len() > LONGEST),
        (Cause::OffsetBetweenEvents, after_header.is_none_or(|bytes| bytes % EVENT_BYTES != 0)),
        (Cause::OffsetPastFile, offset > file.len()),
    ];
    every.into_iter().filter(|&(_, is_so)| is_so).map(|(cause, _)| cause).collect()
}

/// What a file holds by its stored page offset.
#[derive(Clone, PartialEq, Eq, Debug)]
pub struct Damaged<'file> {
    /// As it is stored, right or wrong.
    pub header: Header,
    /// "Events start at byte 8": the whole ones before the stored page offset, right or wrong.
    pub events: Vec<Event>,
    /// "The page bytes are those from the stored page offset to the file's end."
    pub page_bytes: &'file [u8],
}

impl Damaged<'_> {
    /// What a file holds; nothing where it can't be salvaged.
    pub fn read(file: &[u8]) -> Option<Damaged<'_>> {
        if !causes(file).is_empty() {
            return None;
        }
        let header = Header::read(file)?;
        let (before, page_bytes) = file.split_at(usize::from(header.page_bytes));
        Some(Damaged { header, events: whole_events(&before[HEADER_BYTES..]).0, page_bytes })
    }
}
