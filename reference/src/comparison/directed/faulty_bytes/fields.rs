//! Fields before the key, the key's length and a key that is cut: a field of two bytes wrong in each of them, every
//! reserved bit, and what isn't wrong beside it.

use super::draft::record;
use crate::codes::{decryption, encryption, scope};
use crate::comparison::faulty_byte_cases::Form;
use crate::comparison::page_builder::{set_length, status_page_of, SetPage};
use crate::comparison::session::{read_status, security_out, Sink, Stage};
use crate::sizes::KEY_BYTES;
use crate::stream::Command;

pub fn sessions(sink: &mut Sink) {
    for (name, calls) in [
        ("faulty bytes: page codes", page_codes()),
        ("faulty bytes: scopes", scopes()),
        ("faulty bytes: reserved bits", reserved_bits()),
        ("faulty bytes: RDMC, CEEM and modes", modes()),
        ("faulty bytes: key lengths", key_lengths()),
        ("faulty bytes: keys cut", keys_cut()),
        ("faulty bytes: codes of the status page", status_codes()),
    ] {
        let mut stage = Stage::new(name, record(), sink);
        calls.into_iter().for_each(|call| stage.call(call));
        stage.finish();
    }
}

/// A page of each kind, with the nexus for which it is in order.
fn pages() -> Vec<(u8, SetPage)> {
    vec![
        (3, SetPage::k()),
        (6, SetPage::all()),
        (3, SetPage::public(true)),
        (3, supplemental(scope::LOCAL)),
        (9, supplemental(scope::ALL)),
        (6, SetPage::of_modes(scope::LOCAL, encryption::EXTERNAL, decryption::RAW)),
    ]
}

/// A supplemental key for the set of nexus 3 (LOCAL) or of nexus 9 (ALL).
fn supplemental(scope: u8) -> SetPage {
    let mode = if scope == scope::ALL { decryption::MIXED } else { decryption::DECRYPT };
    SetPage::supplemental(scope, mode, 0x33)
}

/// A page with some bytes changed.
fn but(page: &SetPage, changes: &[(usize, u8)]) -> Vec<u8> {
    let mut page = page.bytes();
    changes.iter().for_each(|&(at, value)| page[at] = value);
    page
}

/// Page codes wrong in the first byte, the second and both; SCOPE 3 beside them.
fn page_codes() -> Vec<Command> {
    let mut calls = Vec::new();
    for code in [[0x00, 0x10], [0x01, 0x10], [0x00, 0x11], [0x11, 0x11], [0x10, 0x00], [0x00, 0x20]] {
        let [high, low] = code;
        for (nexus, page) in pages() {
            calls.push(security_out(nexus, but(&page, &[(0, high), (1, low)])));
            calls.push(security_out(nexus, but(&page, &[(0, high), (1, low), (4, 0x61)])));
        }
    }
    for code in [[0x00, 0x20], [0x01, 0x20], [0x00, 0x21], [0x20, 0x21], [0x20, 0x00], [0x00, 0x10]] {
        let mut page = status_page_of(33);
        page[..2].copy_from_slice(&code);
        calls.push(read_status(page.clone()));
        page[4] = 0x61;
        calls.push(read_status(page));
    }
    calls
}

/// Every SCOPE, with the other fields in order and with all of them wrong.
fn scopes() -> Vec<Command> {
    let mut calls = Vec::new();
    for (nexus, page) in pages() {
        for scope in 0..8 {
            for low in [0x00, 0x01, 0x1F] {
                let page = but(&page, &[(4, scope << 5 | low)]);
                let mut all_wrong = page.clone();
                all_wrong[5..].fill(0xFF);
                calls.extend([security_out(nexus, page), security_out(nexus, all_wrong)]);
            }
        }
    }
    calls
}

/// Each reserved bit alone, and all of a byte.
fn reserved_bits() -> Vec<Command> {
    let set_pages = pages().into_iter().map(|(nexus, page)| {
        let form = if page.sdk { Form::Sdk1 } else { Form::Sdk0 };
        (form, security_out(nexus, page.bytes()))
    });
    let status_page = [(Form::Status, read_status(status_page_of(33)))];
    let mut calls = Vec::new();
    for (form, call) in set_pages.chain(status_page) {
        for (byte, mask) in form.reserved_bits() {
            let bits = (0..8).map(|bit| 1 << bit).filter(|bit| mask & bit != 0);
            for bits in bits.chain([mask]) {
                let mut call = call.clone();
                call.data[byte] |= bits;
                calls.push(call);
            }
        }
    }
    calls
}

/// Every RDMC and CEEM with every mode and one that there isn't, the other fields in order.
fn modes() -> Vec<Command> {
    let mut calls = Vec::new();
    for scope in [scope::LOCAL, scope::ALL] {
        for (encryption, decryption) in (0..20).map(|pair| (pair / 5, pair % 5)) {
            for byte_5 in (0..16).map(|bits| bits << 4) {
                let page = SetPage::of_modes(scope, encryption, decryption);
                calls.push(security_out(6, but(&page, &[(5, byte_5)])));
            }
        }
    }
    for (at, values) in [(8, [0, 1, 2, 255]), (9, [0, 1, 0x80, 255]), (10, [0, 1, 0x80, 255])] {
        for (nexus, page) in pages() {
            calls.extend(values.map(|value| security_out(nexus, but(&page, &[(at, value)]))));
        }
    }
    calls
}

/// Key lengths with as many bytes of key: right, wrong in the first byte, in the second, in both; alone, and with a fault
/// in byte 17.
fn key_lengths() -> Vec<Command> {
    let mut calls = Vec::new();
    for length in [0, 1, 16, 31, 32, 33, 0x0100, 0x0101, 0x0120, 0x0121, 0x2000] {
        for (nexus, page) in pages() {
            let page = SetPage { key: vec![0x5A; length], ..page };
            calls.push(security_out(nexus, page.bytes()));
            calls.push(security_out(nexus, but(&page, &[(17, 1)])));
        }
    }
    calls
}

/// Pages cut after each byte of the key, and one byte longer than the key; key lengths past the end.
fn keys_cut() -> Vec<Command> {
    let mut calls = Vec::new();
    let read_only = SetPage::of_modes(scope::LOCAL, encryption::DISABLE, decryption::DECRYPT);
    for (nexus, page) in pages().into_iter().chain([(6, read_only)]) {
        let whole = SetPage { key: vec![0x5A; KEY_BYTES], ..page }.bytes();
        for there in 0..=KEY_BYTES + 1 {
            let mut page = whole.clone();
            page.resize(20 + there, 0);
            set_length(&mut page);
            calls.push(security_out(nexus, page));
        }
        for length in [[0x00, 0x21], [0x01, 0x20], [0xFF, 0xFF], [0x20, 0x00]] {
            let mut page = whole.clone();
            page[18..20].copy_from_slice(&length);
            calls.push(security_out(nexus, page));
        }
    }
    calls
}

/// The codes of a status page up to their largest values and beyond.
fn status_codes() -> Vec<Command> {
    let mut calls = Vec::new();
    for (at, values) in [(5, 0..=3), (6, 0..=4), (7, 0..=2), (12, 0..=8)] {
        for value in values {
            let mut page = status_page_of(24);
            page[at] = value;
            calls.push(read_status(page));
        }
    }
    for byte_4 in 0..=255 {
        let mut page = status_page_of(24);
        page[4] = byte_4;
        calls.push(read_status(page));
    }
    calls
}
