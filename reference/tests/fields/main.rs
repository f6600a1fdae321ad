//! Tests of the faulty byte in words and in sense data: docs/FIELDS.md and docs/CONSOLE.md.

#![forbid(unsafe_code)]

mod answers;
mod document;
mod drive;
mod pages;
mod sense_data;
mod table;

/// 01: "Page K: 52 bytes, length 0030h, byte 4 21h, byte 5 44h, modes 2 and 2, index 1, key length 32, no
/// descriptors."
fn k() -> Vec<u8> {
    let mut page = vec![0x00, 0x10, 0x00, 0x30, 0x21, 0x44, 2, 2, 1, 0, 0, 0, 0, 0, 0, 0, 0, 0, 0x00, 0x20];
    page.extend(100..132);
    page
}

/// K with bytes after its key, its length made right.
fn k_with(list: &[u8]) -> Vec<u8> {
    let mut page = [&k(), list].concat();
    page[3] = (page.len() - 4) as u8;
    page
}

/// A page with some bytes changed.
fn but(mut page: Vec<u8>, changes: &[(usize, u8)]) -> Vec<u8> {
    changes.iter().for_each(|&(at, value)| page[at] = value);
    page
}

/// A descriptor in order.
fn descriptor(kind: u8, data: &[u8]) -> Vec<u8> {
    [&[kind, 0, 0, data.len() as u8], data].concat()
}
