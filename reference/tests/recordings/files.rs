//! Faults in what is made of a file: wrong ones that are taken, and what sound ones are refused for.

use crate::replayer::sparing;
use reference::recording::{event_rules, events_end, parts, Event, FileRule, Header, Recording};
use reference::recording::{EVENT_BYTES, HEADER_BYTES};
use reference::stream::kind;

/// One kind more is known.
pub fn kind_taken(file: &[u8], kind: u8) -> Option<Recording> {
    let known = |event: &Event| event.kind < 12 || event.kind == kind;
    sparing(file, &[FileRule::Kind]).filter(|recording| recording.events.iter().all(known))
}

/// IN's page length may be the size of a lent buffer.
pub fn page_of_in_taken(file: &[u8]) -> Option<Recording> {
    let spared = sparing(file, &[FileRule::UnusedPageLength])?;
    let right = |event: &Event| event.page_length == 0 || matches!(event.kind, kind::IN | kind::OUT);
    let fits = |event: &Event| usize::from(event.page_length) <= spared.page_bytes.len();
    spared.events.iter().all(|event| right(event) && fits(event)).then_some(spared)
}

/// A support flag of 2 is a yes.
pub fn support_flag_2_taken(file: &[u8]) -> Option<Recording> {
    let mut spared = sparing(file, &[FileRule::SupportFlag])?;
    for event in spared.events.iter_mut().filter(|event| event.kind == kind::WRITE) {
        event.argument = if event.argument == 2 { 1 } else { event.argument };
    }
    spared.events.iter().all(|event| event.kind != kind::WRITE || event.argument < 2).then_some(spared)
}

/// Where the page bytes of a file end.
fn page_bytes_of(file: &[u8]) -> Option<usize> {
    Some(parts(&Header::read(file)?, file)?.1.len())
}

/// A page may end one byte past the page bytes.
pub fn page_one_byte_past_taken(file: &[u8]) -> Option<Recording> {
    let spared = sparing(file, &[FileRule::PagePastEnd])?;
    (spared.page_bytes.len() <= page_bytes_of(file)? + 1).then_some(spared)
}

/// A page of no bytes may start past the page bytes.
pub fn empty_page_past_taken(file: &[u8]) -> Option<Recording> {
    let (spared, end) = (sparing(file, &[FileRule::PagePastEnd])?, page_bytes_of(file)?);
    let within = |event: &Event| event.page_length == 0 || event_rules(event, end).is_empty();
    spared.events.iter().all(within).then_some(spared)
}

/// Offset plus length is a number of 16 bits.
pub fn page_end_in_16_bits(file: &[u8]) -> Option<Recording> {
    let (spared, end) = (sparing(file, &[FileRule::PagePastEnd])?, page_bytes_of(file)?);
    let within = |event: &Event| usize::from(event.page_offset.wrapping_add(event.page_length)) <= end;
    spared.events.iter().all(within).then_some(spared)
}

/// The header is put right where it is right in numbers of 16 bits.
pub fn offsets_in_16_bits(file: &[u8]) -> Option<Recording> {
    let header = Header::read(file)?;
    if header.page_bytes != header.event_count.wrapping_mul(8).wrapping_add(8) {
        return None;
    }
    let events = usize::from(header.page_bytes).saturating_sub(HEADER_BYTES) / EVENT_BYTES;
    let header = Header { event_count: events as u16, ..header };
    Recording::read(&[&header.bytes(), &file[HEADER_BYTES..]].concat())
}

/// The total is compared with the low part of the length.
pub fn length_in_16_bits(file: &[u8]) -> Option<Recording> {
    let total = Header::read(file).map(|header| header.total);
    let right = total == Some(file.len() as u16);
    sparing(file, &[FileRule::Total]).filter(|_| right)
}

/// Bytes between the last whole event and the page bytes are skipped.
pub fn part_event_taken(file: &[u8]) -> Option<Recording> {
    let header = Header::read(file)?;
    let end = events_end(usize::from(header.event_count));
    let start = usize::from(header.page_bytes);
    if start <= end || start >= end + EVENT_BYTES || start > file.len() {
        return Recording::read(file);
    }
    let without = [&file[..end], &file[start..]].concat();
    let part = (start - end) as u16;
    let header =
        Header { page_bytes: header.page_bytes - part, total: header.total.wrapping_sub(part), ..header };
    Recording::read(&[&header.bytes(), &without[HEADER_BYTES..]].concat())
}

/// The starts and ends of a recording's pages, in order.
fn pages(recording: &Recording) -> Vec<(usize, usize)> {
    let outs = recording.events.iter().filter(|event| event.kind == kind::OUT);
    let page = |event: &Event| {
        let start = usize::from(event.page_offset);
        (start, start + usize::from(event.page_length))
    };
    let mut pages: Vec<_> = outs.map(page).collect();
    pages.sort();
    pages
}

/// Whether pages overlap.
pub fn overlap(recording: &Recording) -> bool {
    let pages = pages(recording);
    pages.windows(2).any(|pair| pair[1].0 < pair[0].1)
}

/// Whether there are page bytes that no page uses.
pub fn has_unused_page_bytes(recording: &Recording) -> bool {
    let reached = pages(recording).iter().fold(
        0,
        |reached, &(start, end)| {
            if start <= reached {
                end.max(reached)
            } else {
                reached
            }
        },
    );
    reached < recording.page_bytes.len()
}

/// Whether an event has a page of no bytes.
pub fn is_empty_page(event: &Event) -> bool {
    event.kind == kind::OUT && event.page_length == 0
}

/// Whether an event names a place that there isn't.
pub fn is_place_above_4(event: &Event) -> bool {
    event.kind == kind::VENDOR_RELEASE && event.argument > 4
}

/// Whether OUT has another page code than 0010h.
pub fn is_other_page_code(event: &Event) -> bool {
    event.kind == kind::OUT && event.argument != 0x0010
}

/// Whether a read has a block kind above 2.
pub fn is_block_kind_3(event: &Event) -> bool {
    event.kind == kind::READ && event.argument >> 8 > 2
}
