//! Every kind of event in batches, alone and in pairs, from several starting records.

use crate::codes::{decryption, scope};
use crate::comparison::batch_builder::BatchParts;
use crate::comparison::page_builder::SetPage;
use crate::comparison::record_builder::{full, mixed, mixed_without_pending, supply, without_all_nexus};
use crate::comparison::session::{
    event, event_of, power_on, read, security_in, security_out, vendor_release, write, Sink, Stage,
};
use crate::record::Record;
use crate::stream::{kind, Command};

pub fn sessions(sink: &mut Sink) {
    for record in starts() {
        let mut stage = Stage::new("batches of one event", record, sink);
        for call in calls() {
            stage.call(BatchParts::of(&[call]).command());
        }
        stage.finish();
    }
    for record in [Record::power_on(), mixed(), about_to_wrap()] {
        let mut stage = Stage::new("batches of two events", record, sink);
        for one in some_calls() {
            for other in some_calls() {
                stage.call(BatchParts::of(&[one.clone(), other]).command());
            }
        }
        stage.finish();
    }
}

/// Every place used, with sets that every event releases and the counter about to wrap; nexus 3's set has four
/// supplemental keys, and every nexus is locked.
fn about_to_wrap() -> Record {
    let mut record = full([0, 1, 2, 3]);
    record.counter = u32::MAX;
    for set in &mut record.places {
        (set.ckod, set.ckorp, set.ckorl) = (true, true, true);
    }
    supply(&mut record.places[4], 4);
    for nexus in 0..record.nexuses.len() {
        record.nexuses[nexus].lock = true;
        record.nexuses[nexus].saved_at_lock = record.selected_set(nexus).number;
    }
    record
}

/// Records of each kind.
fn starts() -> Vec<Record> {
    let mut damaged = mixed();
    damaged.places[3].key[31] = 1;
    let mut all_pending = mixed();
    for nexus in &mut all_pending.nexuses {
        (nexus.changed_by_another_nexus, nexus.changed_by_vendor_event) = (true, true);
    }
    let unlocked = full([4, 3, 2, 1]);
    vec![
        Record::power_on(),
        mixed(),
        mixed_without_pending(),
        without_all_nexus(),
        unlocked,
        about_to_wrap(),
        all_pending,
        damaged,
    ]
}

/// OUT of a page that isn't taken whole: 6, 7, 8.
fn wrong_pages(nexus: u8) -> Vec<Command> {
    let k = SetPage::k().bytes();
    let mut wrong = k.clone();
    wrong[8] = 9;
    vec![
        Command { argument: 0x0020, ..security_out(nexus, k.clone()) },
        security_out(nexus, k[..51].to_vec()),
        security_out(nexus, Vec::new()),
        security_out(nexus, wrong),
        security_out(nexus, SetPage::labs().bytes()),
    ]
}

/// Calls of each kind with arguments that are in order and that aren't.
fn calls() -> Vec<Command> {
    let mut calls = vec![
        power_on(),
        event(kind::LOGICAL_UNIT_RESET),
        event(kind::DEMOUNT),
        event(kind::DEVICE_RESERVATION_LOSS),
        event(kind::MICROCODE),
    ];
    for nexus in [0, 2, 3, 4, 5, 9, 15, 16, 255] {
        calls.extend([write(nexus, true), write(nexus, false)]);
        calls.extend([event_of(kind::NEXUS_RESERVATION_LOSS, nexus), event_of(kind::PREEMPT, nexus)]);
        for page in [SetPage::k(), SetPage::k_unlocked(), SetPage::all(), SetPage::public(true)] {
            calls.push(security_out(nexus, page.bytes()));
        }
        for (scope, mode) in [(scope::LOCAL, decryption::DECRYPT), (scope::ALL, decryption::MIXED)] {
            calls.push(security_out(nexus, SetPage::supplemental(scope, mode, 9).bytes()));
        }
        calls.extend(wrong_pages(nexus));
        calls
            .extend([0x0000, 0x0001, 0x0010, 0x0012, 0x0020, 0xFFFF].map(|code| security_in(nexus, code, 0)));
        for (block_kind, key) in
            [(0, 255), (0, 0), (1, 0), (1, 1), (1, 255), (2, 255), (3, 255), (1, 5), (255, 254)]
        {
            calls.push(read(nexus, block_kind, key));
        }
    }
    calls.extend([0, 1, 2, 3, 4, 5, 255, 256, 257, 0xFFFF].map(vendor_release));
    calls
}

/// Some of the calls, each of which can change what the next one finds.
fn some_calls() -> Vec<Command> {
    vec![
        power_on(),
        event(kind::LOGICAL_UNIT_RESET),
        event(kind::DEMOUNT),
        event(kind::DEVICE_RESERVATION_LOSS),
        event(kind::MICROCODE),
        vendor_release(0),
        vendor_release(2),
        event_of(kind::PREEMPT, 3),
        event_of(kind::NEXUS_RESERVATION_LOSS, 3),
        security_in(3, 0x0020, 0),
        security_in(4, 0x0033, 0),
        security_out(3, SetPage::k().bytes()),
        security_out(5, SetPage::k_unlocked().bytes()),
        security_out(5, SetPage::public(true).bytes()),
        security_out(6, SetPage::all().bytes()),
        security_out(3, SetPage::supplemental(scope::LOCAL, decryption::DECRYPT, 4).bytes()),
        security_out(6, SetPage::k().bytes()[..30].to_vec()),
        write(3, true),
        write(4, true),
        write(9, false),
        read(3, 1, 1),
        read(5, 1, 0),
        write(16, true),
    ]
}
