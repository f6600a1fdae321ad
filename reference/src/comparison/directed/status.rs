//! The status reader on valid and damaged pages.

use super::descriptors::lists;
use crate::comparison::page_builder::{set_length, status_header, status_page_of, Edit};
use crate::comparison::session::{power_on, read_status, Session, Sink};
use crate::stream::Command;

/// Commands of one session; the reader needs no record, so power-on comes before.
const CALLS: usize = 60;

pub fn sessions(sink: &mut Sink) {
    hand_over("lists for the status reader", with_lists(), sink);
    hand_over("values of the status page's bytes", byte_values(), sink);
    hand_over("status pages of every length", lengths(), sink);
    hand_over("rules of the status reader", rules(), sink);
}

/// Makes sessions of pages.
fn hand_over(name: &str, pages: Vec<Vec<u8>>, sink: &mut Sink) {
    let commands: Vec<Command> = pages.into_iter().map(read_status).collect();
    for part in commands.chunks(CALLS) {
        sink(Session { name: name.to_string(), commands: [vec![power_on()], part.to_vec()].concat() });
    }
}

/// Pages with every list.
fn with_lists() -> Vec<Vec<u8>> {
    let with = |list: Vec<u8>| {
        let mut page = [status_header(), list].concat();
        set_length(&mut page);
        page
    };
    lists().into_iter().map(with).collect()
}

/// Every value of bytes 0 to 23.
fn byte_values() -> Vec<Vec<u8>> {
    let mut pages = Vec::new();
    for length in [24, 33] {
        for byte in 0..24 {
            for value in 0..=255 {
                let mut page = status_page_of(length);
                page[byte] = value;
                pages.push(page);
            }
        }
    }
    pages
}

/// Every length from 0 to 120, with the right length and with others in the page.
fn lengths() -> Vec<Vec<u8>> {
    let mut pages = Vec::new();
    for length in 0..=120 {
        for off in [0, 1, -1, 4, -4, 256] {
            let mut page = status_page_of(length);
            Edit::PageLength(off).apply(&mut page, 24);
            pages.push(page);
        }
    }
    pages
}

/// One rule broken at every length, two at some lengths.
fn rules() -> Vec<Vec<u8>> {
    let edits = Edit::of_status_page();
    let page = |length, some: &[Edit]| {
        let mut page = status_page_of(length);
        some.iter().for_each(|edit| edit.apply(&mut page, 24));
        page
    };
    let mut pages = Vec::new();
    for length in 0..=120 {
        pages.extend(edits.iter().map(|&edit| page(length, &[edit])));
    }
    for length in [23, 24, 25, 28, 29, 40, 60, 61, 64, 65, 70, 76, 77] {
        for (at, &first) in edits.iter().enumerate() {
            pages.extend(edits[at + 1..].iter().map(|&second| page(length, &[first, second])));
        }
    }
    pages
}
