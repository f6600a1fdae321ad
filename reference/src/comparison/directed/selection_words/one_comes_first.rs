//! Records that are well formed but for their words, met by calls that would be refused for something else too, or that come in
//! the name of a nexus with something pending. 01: "Checks run in number order": 1 comes first, and nothing changes.

use crate::codes::{decryption, scope};
use crate::comparison::page_builder::SetPage;
use crate::comparison::record_builder::{full, mixed, supply};
use crate::comparison::session::{
    event_of, load, read, security_in, security_out, serves, vendor_release, write, Session, Sink,
};
use crate::comparison::word_cases::{Standing, WrongWords};
use crate::record::Record;
use crate::selection_words::bit;
use crate::sizes::{NEXUSES, SUPPLEMENTAL_KEYS};
use crate::stream::{kind, Command};

/// The owners of places 1 to 4 in the record in which every refusal can be due; place 0's is nexus 9.
const OWNERS: [usize; 4] = [3, 12, 0, 7];

pub fn sessions(sink: &mut Sink) {
    for standing in Standing::EVERY {
        let calls: Vec<Command> = (0..NEXUSES as u8).flat_map(in_name_of).collect();
        over_wrong_words(&standing.of_all(mixed()), &calls, sink);
    }
    let above_15 = [16, 17, 31, 128, 255].into_iter().flat_map(in_name_of);
    over_wrong_words(&refusing(), &above_15.chain(refused()).collect::<Vec<_>>(), sink);
}

/// The calls over the record with its words made wrong: by one bit that is missing, by one that no nexus has, by a nexus in
/// another word, and by zeros alone. Each is answered 1, so that the record is loaded once.
fn over_wrong_words(record: &Record, calls: &[Command], sink: &mut Sink) {
    let one_bit = |at| {
        let mut words = record.selection_words;
        words[0] ^= bit(at);
        words
    };
    let ways = [WrongWords::InAnotherWord { from: 2, to: 0 }, WrongWords::AllZeros];
    let more_bits = ways.into_iter().filter_map(|way| way.made(record, 0));
    for selection_words in [one_bit(5), one_bit(40)].into_iter().chain(more_bits) {
        let wrong = Record { selection_words, ..record.clone() };
        let commands = [&[load(&wrong)], calls].concat();
        sink(Session { name: "wrong words come before other refusals".to_string(), commands });
    }
}

/// A call of each kind that names a nexus, with pages of every scope in turn.
fn in_name_of(nexus: u8) -> [Command; 6] {
    let key = SetPage::supplemental(scope::LOCAL, decryption::DECRYPT, nexus);
    let page = [SetPage::k(), SetPage::all(), SetPage::public(true), key][usize::from(nexus) % 4].bytes();
    [
        security_in(nexus, 0x0020, 24),
        security_out(nexus, page),
        write(nexus, true),
        event_of(kind::NEXUS_RESERVATION_LOSS, nexus),
        event_of(kind::PREEMPT, nexus),
        read(nexus, 1, 0),
    ]
}

/// A record in which every place is used and locked, one set has four supplemental keys, and one nexus's number was another at
/// its lock; nexuses 1 and 2 have a flag pending.
fn refusing() -> Record {
    let mut record = full(OWNERS);
    supply(&mut record.places[1], SUPPLEMENTAL_KEYS);
    for owner in OWNERS {
        record.nexuses[owner].lock = true;
        record.nexuses[owner].saved_at_lock = record.selected_set(owner).number;
    }
    record.nexuses[OWNERS[1]].saved_at_lock += 1;
    record.nexuses[1].changed_by_another_nexus = true;
    record.nexuses[2].changed_by_vendor_event = true;
    record
}

/// Calls that are refused there with each other answer: flags and protocols, pages, writes, reads, and places above 4.
fn refused() -> Vec<Command> {
    let k = SetPage::k().bytes();
    let mut wrong = k.clone();
    wrong[8] = 9;
    let [owner, changed] = [OWNERS[0] as u8, OWNERS[1] as u8];
    let fifth = SetPage::supplemental(scope::LOCAL, decryption::DECRYPT, 5).bytes();
    let mut calls: Vec<Command> = [1, 2].into_iter().flat_map(in_name_of).collect();
    for protocol in [0x00, 0x1F, 0x21, 0xFF] {
        calls.push(Command { protocol, ..security_in(owner, 0x0020, 24) });
        calls.push(Command { protocol, ..security_out(8, k.clone()) });
    }
    let unsupported = Command { argument: 0x0020, ..security_out(8, k.clone()) };
    calls.extend([security_in(owner, 0x0021, 24), unsupported]);
    calls.extend([security_out(8, k[..51].to_vec()), security_out(8, wrong)]);
    calls.extend([security_out(owner, fifth), security_out(8, k)]);
    calls.extend([write(changed, true), write(owner, false)]);
    calls.extend([read(owner, 3, 255), read(9, 2, 255), read(owner, 0, 255), read(owner, 1, 255)]);
    calls.extend([5, 256, 0xFFFF].into_iter().flat_map(|place| [vendor_release(place), serves(place)]));
    calls
}
