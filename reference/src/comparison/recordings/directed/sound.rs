//! What is not wrong: no events, odd pages, power-on anywhere, numbers that are left to the calls.

use crate::comparison::page_builder::SetPage;
use crate::comparison::recordings::builder::{
    file_of, no_events, out, overlapping_pages, recording_of, requests, supported_write,
};
use crate::comparison::recordings::case::{put, Group, Sink};
use crate::comparison::session::{
    event, event_of, power_on, read, security_in, security_out, vendor_release, write,
};
use crate::recording::{Event, Recording};
use crate::stream::{kind, Command};

pub fn recordings(sink: &mut Sink) {
    put(sink, Group::NoEvents, "no page bytes", no_events().bytes());
    for count in [1, 7, 8, 9, 52, 300] {
        put(sink, Group::NoEvents, format!("{count} page bytes"), file_of(Vec::new(), vec![0xFF; count]));
    }
    odd_pages(sink);
    power_on_in_the_middle(sink);
    left_to_calls(sink);
}

/// Pages of no bytes, pages that overlap, pages one within another, page bytes that no event uses.
fn odd_pages(sink: &mut Sink) {
    let k = SetPage::k().bytes();
    let empty = vec![out(0, 0, 0), out(1, 20, 0), out(2, 52, 0), out(3, 0, 52)];
    put(sink, Group::OddPages, "pages of no bytes", file_of(empty, k.clone()));
    put(sink, Group::OddPages, "a page of no bytes, no page bytes", file_of(vec![out(3, 0, 0)], Vec::new()));
    let (overlapping, nested) = overlapping_pages();
    put(sink, Group::OddPages, "overlapping pages", file_of(overlapping, nested));
    let around = [vec![0xA5; 30], k.clone(), vec![0x5A; 70]].concat();
    put(
        sink,
        Group::OddPages,
        "page bytes around a page",
        file_of(vec![out(3, 30, 52), supported_write(3)], around),
    );
    let demount = requests().events;
    put(sink, Group::OddPages, "page bytes and no page", file_of(demount, k.clone()));
    let turned = [SetPage::public(true).bytes(), k].concat();
    let turned = file_of(vec![out(3, 20, 52), supported_write(3), out(5, 0, 20), supported_write(5)], turned);
    put(sink, Group::OddPages, "pages in another order than their events", turned);
}

/// Power-on at the start, in the middle and at the end: it gives all zeros.
fn power_on_in_the_middle(sink: &mut Sink) {
    let k = security_out(3, SetPage::k().bytes());
    let put_commands = |name: &str, commands: &[Command], sink: &mut Sink| {
        put(sink, Group::SoundNeighbour, name, recording_of(commands).bytes());
    };
    let wrote = [k.clone(), write(3, false), power_on(), write(3, false), read(3, 1, 0)];
    put_commands("power-on in the middle", &wrote, sink);
    put_commands("power-on at the end", &[k.clone(), power_on()], sink);
    put_commands("power-on at the start", &[power_on(), k.clone(), write(3, false)], sink);
    put_commands("power-on twice", &[k.clone(), power_on(), power_on(), k], sink);
}

/// "Other numbers are left to the calls": nexuses, places, page codes, block kinds and keys of any value.
fn left_to_calls(sink: &mut Sink) {
    let k = SetPage::k().bytes();
    let mut nexuses = vec![security_out(3, k.clone())];
    for nexus in 0..=255 {
        nexuses.extend([write(nexus, true), read(nexus, 0, 255), security_in(nexus, 0x0020, 0)]);
        nexuses.extend([security_out(nexus, k.clone()), event_of(kind::NEXUS_RESERVATION_LOSS, nexus)]);
        nexuses.push(event_of(kind::PREEMPT, nexus));
    }
    let places = (0..=300).chain([0x0400, 0x0401, 0x8000, 0xFFFF]).map(vendor_release).collect();
    let bits = (0..16).map(|bit| 1 << bit);
    let codes: Vec<u16> = (0..=0x40).chain(bits).chain([0x1000, 0x2000, 0x0110, 0x0120, 0xFFFF]).collect();
    let of_code =
        |&code: &u16| [security_in(3, code, 0), Command { argument: code, ..security_out(3, k.clone()) }];
    let all_reads = |nexus| {
        (0..=255)
            .flat_map(move |value| [read(nexus, value, 255), read(nexus, 1, value), read(nexus, value, 0)])
    };
    let reads = [vec![security_out(3, k.clone())], all_reads(3).chain(all_reads(4)).collect()].concat();
    let lists: [(&str, Vec<Command>); 5] = [
        ("nexuses", nexuses),
        ("places", places),
        ("page codes", codes.iter().flat_map(of_code).collect()),
        ("block kinds and keys", reads),
        ("a read of block kind 3", vec![event(kind::DEMOUNT), read(3, 3, 255)]),
    ];
    for (name, commands) in lists {
        put(sink, Group::NumbersLeftToCalls, name, recording_of(&commands).bytes());
    }
    for kind in [kind::IN, kind::OUT, kind::WRITE, kind::NEXUS_RESERVATION_LOSS, kind::PREEMPT, kind::READ] {
        for nexus in [16, 255] {
            let events = vec![Event { kind, nexus, ..Event::default() }];
            let file = Recording { events, page_bytes: Vec::new() }.bytes();
            put(sink, Group::NumbersLeftToCalls, format!("kind {kind} of nexus {nexus}"), file);
        }
    }
}
