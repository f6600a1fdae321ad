//! Every kind of command, known or not; nexuses, protocols and page codes in and out of range; fields a kind
//! doesn't have; data of the largest length.

use crate::comparison::page_builder::{set_length, SetPage};
use crate::comparison::record_builder::{full, mixed};
use crate::comparison::session::{
    event, event_of, load, load_bytes, power_on, read, read_status, security_in, security_out, serves,
    vendor_release, write, Session, Sink, Stage,
};
use crate::record::Record;
use crate::stream::{kind, Command};

pub fn sessions(sink: &mut Sink) {
    unknown_kinds(sink);
    nexuses(sink);
    protocols_and_pages(sink);
    unread_fields(sink);
    largest_data(sink);
}

/// Kinds 14 to 252 are unknown; so are a support flag above 1 and a lent buffer above the limit.
fn unknown_kinds(sink: &mut Sink) {
    let mut stage = Stage::new("unknown kinds", mixed(), sink);
    for kind in 14..=252 {
        stage.call(event_of(kind, 3));
    }
    stage.call(Command { length: 40, ..event(14) });
    for argument in [2, 3, 0x0100, 0xFFFF] {
        stage.call(Command { argument, ..write(3, true) });
    }
    for size in [4095, 4096, 4097, 0xFFFF] {
        stage.call(security_in(3, 0x0020, size));
    }
    stage.call(event(kind::GIVE_RECORD));
    stage.finish();
}

/// Every nexus, for each call that has one; places in and out of range.
fn nexuses(sink: &mut Sink) {
    let mut stage = Stage::new("nexuses in and out of range", mixed(), sink);
    for nexus in 0..=255 {
        stage.call(write(nexus, true));
        stage.call(read(nexus, 0, 255));
        stage.call(security_in(nexus, 0x0020, 76));
        stage.call(security_out(nexus, SetPage::k().bytes()));
        stage.call(event_of(kind::NEXUS_RESERVATION_LOSS, nexus));
        stage.call(event_of(kind::PREEMPT, nexus));
    }
    for place in (0..=300).chain([0x0400, 0x0401, 0x8000, 0xFFFF]) {
        stage.call(vendor_release(place));
        stage.call(serves(place));
    }
    stage.finish();
}

/// Every protocol; page codes in and out of the lists of IN and OUT.
fn protocols_and_pages(sink: &mut Sink) {
    let mut stage = Stage::new("protocols and page codes", mixed(), sink);
    let code_bits = (0..16).map(|bit| 1 << bit);
    let codes: Vec<u16> =
        (0..=0x40).chain(code_bits).chain([0x1000, 0x2000, 0x0110, 0x0120, 0xFFFF]).collect();
    for nexus in [3, 6] {
        for protocol in 0..=255 {
            stage.call(Command { protocol, ..security_in(nexus, 0x0020, 24) });
            stage.call(Command { protocol, ..security_out(nexus, SetPage::k().bytes()) });
            stage.call(Command { protocol, ..security_in(nexus, 0x0021, 24) });
        }
        for &code in &codes {
            stage.call(security_in(nexus, code, 20));
            stage.call(Command { argument: code, ..security_out(nexus, SetPage::k().bytes()) });
            stage.call(Command { argument: code, ..security_out(nexus, Vec::new()) });
        }
    }
    stage.finish();
}

/// 01: "a check applies only to calls that have its argument".
fn unread_fields(sink: &mut Sink) {
    let mut stage = Stage::new("fields a kind doesn't have", full([0, 1, 2, 3]), sink);
    let (nexus, argument, protocol, length) = (200, 0xFFFF, 0x99, 0x4321);
    for kind in [
        kind::POWER_ON,
        kind::LOGICAL_UNIT_RESET,
        kind::DEMOUNT,
        kind::DEVICE_RESERVATION_LOSS,
        kind::MICROCODE,
        kind::GIVE_RECORD,
    ] {
        stage.call(Command { kind, nexus, argument, protocol, length, ..event(kind) });
    }
    for event in [event_of(kind::NEXUS_RESERVATION_LOSS, 1), event_of(kind::PREEMPT, 1)] {
        stage.call(Command { argument, protocol, length, ..event });
    }
    stage.call(Command { nexus, protocol, length, ..vendor_release(2) });
    stage.call(Command { nexus, protocol, length, ..serves(2) });
    stage.call(Command { protocol, length, ..write(1, true) });
    stage.call(Command { protocol, length, ..read(1, 1, 0) });
    stage.call(Command { nexus, argument, protocol, ..read_status(vec![0; 24]) });
    stage.call(Command { nexus, argument, protocol, ..load(&Record::power_on()) });
    stage.finish();
}

/// Pages and records of the largest lengths.
fn largest_data(sink: &mut Sink) {
    for length in [255, 256, 4095, 4096, 4097, 65534, 65535] {
        let mut commands = vec![power_on()];
        for page in [SetPage::public(true), SetPage::k(), SetPage::all()] {
            let mut bytes = page.bytes();
            bytes.resize(length, 0);
            commands.push(security_out(1, bytes.clone()));
            set_length(&mut bytes);
            commands.push(security_out(1, bytes));
        }
        let mut status = vec![0; length];
        status[1] = 0x20;
        set_length(&mut status);
        commands.push(read_status(status));
        commands.push(load_bytes(vec![0; length]));
        sink(Session { name: "large data".to_string(), commands });
    }
}
