//! Pages in the page bytes that are lent with a batch: offsets count from their start.

use crate::codes::{decryption, scope};
use crate::comparison::batch_builder::BatchParts;
use crate::comparison::page_builder::{set_length, SetPage};
use crate::comparison::record_builder::{full, mixed};
use crate::comparison::recordings::builder::{out, overlapping_pages, supported_write};
use crate::comparison::session::{Sink, Stage};
use crate::record::Record;
use crate::recording::Event;

pub fn sessions(sink: &mut Sink) {
    for record in [Record::power_on(), mixed(), full([0, 1, 2, 3])] {
        let mut stage = Stage::new("pages in batches", record, sink);
        let batches = [one_after_another(), odd(), within_and_past(), in_other_bytes(), largest()].concat();
        for batch in batches {
            stage.call(batch.command());
        }
        stage.finish();
    }
}

/// Four pages of which each shows: K, an ALL page, a supplemental key for K, and a PUBLIC page.
fn four_pages() -> [Vec<u8>; 4] {
    let supplemental = SetPage::supplemental(scope::LOCAL, decryption::DECRYPT, 0x33);
    [SetPage::k(), SetPage::all(), supplemental, SetPage::public(true)].map(|page| page.bytes())
}

/// OUT of each of some pages that stand one after another from a byte on.
fn outs(pages: &[Vec<u8>], start: usize) -> Vec<Event> {
    let mut offset = start;
    let mut events = Vec::new();
    for (nexus, page) in [3, 4, 3, 5].into_iter().zip(pages) {
        events.push(out(nexus, offset as u16, page.len() as u16));
        offset += page.len();
    }
    events
}

/// The four pages in the order of their events and in others, with writes between them, and each alone.
fn one_after_another() -> Vec<BatchParts> {
    let page_bytes = four_pages().concat();
    let events = outs(&four_pages(), 0);
    let mut batches = Vec::new();
    for turn in 0..4 {
        let mut turned = events.clone();
        turned.rotate_left(turn);
        batches.push(BatchParts::new(turned.clone(), page_bytes.clone()));
        turned.reverse();
        let writes = turned.into_iter().flat_map(|event| [event, supported_write(event.nexus)]);
        batches.push(BatchParts::new(writes.collect(), page_bytes.clone()));
        batches.push(BatchParts::new(vec![events[turn]], page_bytes.clone()));
    }
    batches
}

/// Pages of no bytes anywhere, equal pages, pages that overlap and pages one within another.
fn odd() -> Vec<BatchParts> {
    let k = SetPage::k().bytes();
    let empty = vec![out(0, 0, 0), out(1, 20, 0), out(2, 52, 0), out(3, 0, 52)];
    let equal = (0..5).map(|nexus| out(nexus, 0, 52)).collect();
    let (overlapping, nested) = overlapping_pages();
    vec![
        BatchParts::new(empty, k.clone()),
        BatchParts::new(vec![out(3, 0, 0)], Vec::new()),
        BatchParts::new(vec![out(3, 52, 0)], k.clone()),
        BatchParts::new(equal, k.clone()),
        BatchParts::new(overlapping, nested),
        BatchParts::new(Vec::new(), k),
        BatchParts::new(vec![supported_write(3)], vec![0x5A; 9]),
    ]
}

/// Pages that end with the page bytes, just before and just past them, for some counts of page bytes; past them also by
/// the length of the events, of what stands before them in the data, and of the command.
fn within_and_past() -> Vec<BatchParts> {
    let mut batches = Vec::new();
    for count in [0, 1, 20, 52, 60, 300] {
        let mut page_bytes = SetPage::k().bytes();
        page_bytes.resize(usize::from(count), 0x5A);
        let mut batch = |offset, length| {
            let events = vec![supported_write(3), out(3, offset, length), supported_write(3)];
            batches.push(BatchParts::new(events, page_bytes.clone()));
        };
        for length in 0..=count.min(60) {
            batch(count - length, length);
        }
        for beyond in [1, 2, 8, 10, 24, 26, 34] {
            batch(0, count + beyond);
            batch(beyond, count);
            batch(count + beyond, 0);
        }
    }
    batches
}

/// K among other bytes, at offsets that a byte, 15 bits and 16 bits tell, and at those at which it would stand if offsets
/// counted from another start.
fn in_other_bytes() -> Vec<BatchParts> {
    let mut batches = Vec::new();
    for offset in [1, 2, 8, 10, 18, 24, 26, 34, 204, 255, 256, 257, 0x7FFF, 0x8000, 0xFE00] {
        for after in [0, 1, 40] {
            let page_bytes = [vec![0xA5; offset], SetPage::k().bytes(), vec![0x5A; after]].concat();
            let events = vec![supported_write(3), out(3, offset as u16, 52), supported_write(3)];
            batches.push(BatchParts::new(events, page_bytes));
        }
    }
    batches
}

/// The most page bytes: a PUBLIC page of all of them, and one at their end.
fn largest() -> Vec<BatchParts> {
    let mut batches = Vec::new();
    for events in [1, 64] {
        let count = 65_535 - 2 - 8 * events;
        let mut page = vec![0x11; count];
        page[..5].copy_from_slice(&[0, 0x10, 0, 0, 1]);
        set_length(&mut page);
        let last = count - 20;
        page[last..].copy_from_slice(&SetPage::public(true).bytes());
        let pages = [out(3, 0, count as u16), out(4, last as u16, 20), out(5, 1, count as u16)];
        batches.extend(pages.map(|event| BatchParts::new(vec![event; events], page.clone())));
    }
    batches
}
