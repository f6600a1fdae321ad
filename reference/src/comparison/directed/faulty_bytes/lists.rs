//! Descriptors in Set pages and status pages: each fault at each position, lists of every length before it, and bytes left
//! over where the list must be empty.

use super::draft::record;
use crate::codes::{decryption, encryption, scope};
use crate::comparison::page_builder::{descriptor, set_length, status_header, SetPage};
use crate::comparison::session::{read_status, security_out, Sink, Stage};
use crate::descriptors::{A_KAD_TYPE, U_KAD_TYPE};
use crate::sizes::{A_KAD_BYTES, U_KAD_BYTES};
use crate::stream::Command;

pub fn sessions(sink: &mut Sink) {
    let mut stage = Stage::new("faulty bytes: descriptors", record(), sink);
    for list in faults_after(&[], &[U_KAD_TYPE, A_KAD_TYPE]).into_iter().chain(second()).chain(third()) {
        for page in [SetPage::k(), SetPage::all()] {
            stage.call(in_set_page(page, list.clone()));
        }
        stage.call(in_status_page(list));
    }
    for (u_kad, a_kad) in (0..9).map(|pair| ([0, 1, U_KAD_BYTES][pair / 3], [0, 1, A_KAD_BYTES][pair % 3])) {
        let list = in_order(u_kad, a_kad);
        stage.call(in_set_page(SetPage::k(), list.clone()));
        stage.call(in_status_page(list));
    }
    stage.finish();
    let mut stage = Stage::new("faulty bytes: bytes left over", record(), sink);
    left_over().into_iter().for_each(|call| stage.call(call));
    stage.finish();
}

/// A page with a list.
fn in_set_page(page: SetPage, list: Vec<u8>) -> Command {
    security_out(3, SetPage { list, ..page }.bytes())
}

/// A status page with a list.
fn in_status_page(list: Vec<u8>) -> Command {
    let mut page = [status_header(), list].concat();
    set_length(&mut page);
    read_status(page)
}

/// A descriptor with as much data as it says.
fn whole(kind: u8, length: usize) -> Vec<u8> {
    descriptor(kind, length as u16, length)
}

/// A list in order; a length of 0 leaves the type out.
fn in_order(u_kad: usize, a_kad: usize) -> Vec<u8> {
    let parts = [(U_KAD_TYPE, u_kad), (A_KAD_TYPE, a_kad)].into_iter().filter(|&(_, length)| length > 0);
    parts.flat_map(|(kind, length)| whole(kind, length)).collect()
}

/// After some descriptors in order, one of each of these types with each fault, and unknown types.
fn faults_after(before: &[u8], kinds: &[u8]) -> Vec<Vec<u8>> {
    let mut faulty = Vec::new();
    for &kind in kinds {
        let most = if kind == U_KAD_TYPE { U_KAD_BYTES } else { A_KAD_BYTES };
        for second_byte in [0x01, 0x80, 0xFF] {
            let mut descriptor = whole(kind, 1);
            descriptor[1] = second_byte;
            faulty.push(descriptor);
        }
        for length in [0, 1, most, most + 1, 0x0100, 0x0101, 0x010C, 0x0120] {
            let descriptor = whole(kind, length);
            faulty.push(descriptor[..descriptor.len().min(60)].to_vec());
            faulty.push(descriptor);
        }
        faulty.extend((1..most + 4).map(|there| whole(kind, most)[..there].to_vec()));
    }
    for kind in [2, 3, 0x80, 0xFF] {
        faulty.extend((1..=5).map(|there| whole(kind, 1)[..there].to_vec()));
    }
    faulty.into_iter().map(|faulty| [before, &faulty].concat()).collect()
}

/// A second descriptor with each fault after one of each type, and with some faults after a U-KAD of each length.
fn second() -> Vec<Vec<u8>> {
    let mut lists = Vec::new();
    for kind in [U_KAD_TYPE, A_KAD_TYPE] {
        lists.extend(faults_after(&whole(kind, 3), &[U_KAD_TYPE, A_KAD_TYPE]));
        lists.extend([U_KAD_TYPE, A_KAD_TYPE].map(|second| [whole(kind, 3), whole(second, 1)].concat()));
    }
    for length in 1..=U_KAD_BYTES {
        let zero_byte_wrong = vec![A_KAD_TYPE, 1, 0, 1, 9];
        for second in
            [vec![A_KAD_TYPE], whole(2, 1), zero_byte_wrong, whole(A_KAD_TYPE, 0), whole(A_KAD_TYPE, 1)]
        {
            lists.push([whole(U_KAD_TYPE, length), second].concat());
        }
    }
    lists
}

/// A third descriptor, which is never right, after two of each length together.
fn third() -> Vec<Vec<u8>> {
    let mut lists = Vec::new();
    for both in 2..=U_KAD_BYTES + A_KAD_BYTES {
        let u_kad = U_KAD_BYTES.min(both - 1);
        for third in [U_KAD_TYPE, A_KAD_TYPE, 2] {
            lists.push([in_order(u_kad, both - u_kad), whole(third, 1)].concat());
        }
    }
    lists.extend(faults_after(&in_order(U_KAD_BYTES, A_KAD_BYTES), &[U_KAD_TYPE, A_KAD_TYPE]));
    lists.extend(
        [0x01, 0x80]
            .map(|second_byte| [in_order(U_KAD_BYTES, A_KAD_BYTES), vec![2, second_byte, 0, 1, 9]].concat()),
    );
    lists
}

/// Pages whose list must be empty, with none, a few and many bytes after the key.
fn left_over() -> Vec<Command> {
    let supplemental = [(3, scope::LOCAL, decryption::DECRYPT), (9, scope::ALL, decryption::MIXED)]
        .map(|(nexus, scope, mode)| (nexus, SetPage::supplemental(scope, mode, 0x44)));
    let without_encrypt = (0..8).flat_map(|modes| {
        let page = |scope| SetPage::of_modes(scope, modes / 4, modes % 4);
        [scope::LOCAL, scope::ALL].map(|scope| (6, page(scope)))
    });
    let mut lists: Vec<Vec<u8>> = (0..=5).map(|bytes| vec![0; bytes]).collect();
    lists.extend([vec![0xFF], vec![0xFF; 300], vec![0; 65_483], whole(U_KAD_TYPE, 1), in_order(32, 12)]);
    let mut calls = Vec::new();
    for (nexus, page) in supplemental.into_iter().chain(without_encrypt) {
        for list in &lists {
            let page = SetPage { list: list.clone(), ..page.clone() };
            calls.push(security_out(nexus, page.bytes()));
        }
    }
    // the neighbour: under ENCRYPT the same bytes are a list
    let encrypts = SetPage::of_modes(scope::LOCAL, encryption::ENCRYPT, decryption::DISABLE);
    calls.extend(lists.into_iter().map(|list| security_out(6, SetPage { list, ..encrypts.clone() }.bytes())));
    calls
}
