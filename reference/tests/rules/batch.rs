//! 02, request 5: several events in one call.

use crate::given::{after_p2, k, k_but};
use crate::recording::{event, file, out};
use crate::replay;
use reference::comparison::record_builder::{full, mixed};
use reference::comparison::session;
use reference::record::Record;
use reference::record_bytes;
use reference::recording::{Batch, BatchRule, BatchVerdict, BrokenByBatch, Event, FileRule, Verdict};
use reference::stream::{Command, Drive};

/// What is in the buffer before the call.
const FILL: u8 = 0x5E;

/// What comes of a batch: the verdict's number, the buffer and the record.
#[derive(Clone, PartialEq, Eq, Debug)]
struct Called {
    number: u8,
    lent: Vec<u8>,
    record: Record,
}

/// Bytes of events over page bytes from a record, with so many bytes lent.
fn call_bytes(record: &Record, events: &[u8], page_bytes: &[u8], room: usize) -> Called {
    let mut drive = Drive::with(record.clone());
    let mut lent = vec![FILL; room];
    let outcome = Batch { events, page_bytes }.call(&mut drive, &mut lent);
    assert_eq!(outcome.broken.is_empty(), outcome.verdict == BatchVerdict::Taken);
    Called { number: outcome.verdict.number(), lent, record: drive.controller().record.clone() }
}

/// The bytes of some events.
fn bytes(events: &[Event]) -> Vec<u8> {
    events.iter().flat_map(Event::bytes).collect()
}

/// Events over page bytes from a record.
fn call(record: &Record, events: &[Event], page_bytes: &[u8], room: usize) -> Called {
    call_bytes(record, &bytes(events), page_bytes, room)
}

/// What a batch comes to that is refused: the record and the buffer stay.
fn refused(number: u8, record: &Record, room: usize) -> Called {
    Called { number, lent: vec![FILL; room], record: record.clone() }
}

/// The answers of a batch that is taken with just the room for them.
fn answers(record: &Record, events: &[Event], page_bytes: &[u8]) -> Vec<[u8; 4]> {
    let called = call(record, events, page_bytes, 4 * events.len());
    assert_eq!(called.number, 0);
    called.lent.chunks(4).map(|answer| answer.try_into().expect("four bytes")).collect()
}

/// So many demounts.
fn demounts(count: usize) -> Vec<Event> {
    vec![event(5, 0, 0); count]
}

/// A record with a bit turned that makes it not well formed: the index of place 0's set is 0.
fn damaged() -> Record {
    let mut bytes = record_bytes::give(&mixed());
    bytes[4 + 4] ^= 1;
    record_bytes::load(&bytes).expect("the marks are marks")
}

/// Records to start from.
fn records() -> Vec<Record> {
    vec![Record::power_on(), after_p2().record, mixed(), full([0, 1, 2, 3]), damaged()]
}

/// P7 and the writes of P4: nexus 3 sends K, writes with and without support, is told of the demount.
fn p7() -> Vec<Event> {
    vec![out(3, 0, 52), event(3, 3, 1), event(3, 3, 0), event(5, 0, 0), event(3, 3, 1), event(3, 3, 1)]
}

const P7_ANSWERS: [[u8; 4]; 6] =
    [[0; 4], [0; 4], [12, 7, 0x74, 7], [0; 4], [4, 6, 0x2A, 0x12], [11, 7, 0x2A, 0x13]];

#[test]
fn events_in_order_with_four_bytes_of_answer_each() {
    assert_eq!(answers(&Record::power_on(), &p7(), &k()), P7_ANSWERS);
}

#[test]
fn bytes_beyond_the_answers_are_kept() {
    for beyond in [0, 1, 2, 3, 4, 5, 100] {
        let called = call(&Record::power_on(), &p7(), &k(), 24 + beyond);
        assert_eq!(called.number, 0);
        assert_eq!(called.lent[..24], P7_ANSWERS.concat());
        assert_eq!(called.lent[24..], vec![FILL; beyond]);
    }
}

#[test]
fn an_empty_batch_changes_nothing() {
    for record in records() {
        for room in [0, 1, 4, 9] {
            for page_bytes in [&[][..], &[1, 2, 3], &k()] {
                // not even where the record isn't well formed: no event, no answer 1
                let kept = Called { number: 0, lent: vec![FILL; room], record: record.clone() };
                assert_eq!(call(&record, &[], page_bytes, room), kept);
            }
        }
    }
}

#[test]
fn up_to_64_events() {
    for record in records() {
        for count in [0, 1, 2, 63, 64] {
            let called = call(&record, &demounts(count), &[], 300);
            assert_eq!(called.number, 0, "{count} events");
            let beyond = 300 - 4 * count;
            assert_eq!(called.lent[4 * count..], vec![FILL; beyond]);
        }
        for count in [65, 66, 100, 256, 257, 1000, 8191] {
            let room = 4 * count;
            assert_eq!(call(&record, &demounts(count), &[], room), refused(18, &record, room));
        }
    }
}

#[test]
fn room_for_all_answers() {
    let record = mixed();
    for count in 0..=64 {
        let taken = call(&record, &demounts(count), &[], 4 * count);
        assert_eq!((taken.number, taken.lent.len()), (0, 4 * count));
        let more = call(&record, &demounts(count), &[], 4 * count + 1);
        assert_eq!((more.number, more.record), (0, taken.record));
        assert_eq!(more.lent, [taken.lent, vec![FILL]].concat());
        for fewer in (1..=4).filter(|_| count > 0) {
            let room = 4 * count - fewer;
            assert_eq!(call(&record, &demounts(count), &[], room), refused(18, &record, room));
        }
    }
    assert_eq!(call(&record, &demounts(64), &[], 0), refused(18, &record, 0));
}

#[test]
fn a_part_event_left_over() {
    let record = mixed();
    for part in 1..=7 {
        for (count, number) in [(0, 22), (1, 22), (63, 22), (64, 22), (65, 18), (66, 18)] {
            let events = [bytes(&demounts(count)), vec![0; part]].concat();
            // it is no event: no room is asked for it, and with it 64 events are no more than 64
            for room in [4 * count, 4 * count + 3, 4 * count + 4, 400] {
                assert_eq!(call_bytes(&record, &events, &[], room), refused(number, &record, room));
            }
            if count > 0 {
                let room = 4 * count - 1;
                assert_eq!(call_bytes(&record, &events, &[], room), refused(18, &record, room));
            }
        }
        // page bytes don't make it whole
        let demount = bytes(&demounts(1));
        let called = call_bytes(&record, &demount[..part], &demount[part..], 4);
        assert_eq!(called, refused(22, &record, 4));
    }
}

/// Wrong events over 52 page bytes, by the rule they break.
fn wrong_events() -> Vec<(FileRule, Event)> {
    vec![
        (FileRule::Kind, event(12, 0, 0)),
        (FileRule::Kind, event(255, 3, 1)),
        (FileRule::SupportFlag, event(3, 3, 2)),
        (FileRule::SupportFlag, event(3, 16, 256)),
        (FileRule::UnusedNexus, event(5, 3, 0)),
        (FileRule::UnusedArgument, event(8, 3, 1)),
        (FileRule::UnusedPageOffset, Event { page_offset: 1, ..event(1, 3, 0x0020) }),
        (FileRule::UnusedPageLength, Event { page_length: 52, ..event(1, 3, 0x0020) }),
        (FileRule::PagePastEnd, out(3, 0, 53)),
        (FileRule::PagePastEnd, out(3, 53, 0)),
        (FileRule::PagePastEnd, out(3, 65_535, 1)),
    ]
}

#[test]
fn a_wrong_field_or_page_refuses_before_any_event_runs() {
    for record in records() {
        for (rule, wrong) in wrong_events() {
            for position in 0..=6 {
                let mut events = p7();
                events.insert(position, wrong);
                for room in [28, 29, 400] {
                    assert_eq!(call(&record, &events, &k(), room), refused(22, &record, room), "{rule:?}");
                }
                let broken = Batch { events: &bytes(&events), page_bytes: &k() }.broken(28);
                let expected = BrokenByBatch { rule: BatchRule::OfEvent(rule), position: Some(position) };
                assert_eq!(broken, [expected]);
            }
            assert_eq!(call(&record, &[wrong], &k(), 4), refused(22, &record, 4));
        }
    }
}

#[test]
fn eighteen_comes_first() {
    let record = mixed();
    for (_, wrong) in wrong_events() {
        for count in [0, 1, 63] {
            for position in [0, count / 2, count] {
                let mut events = demounts(count);
                events.insert(position, wrong);
                for room in [0, 4 * count, 4 * count + 3] {
                    assert_eq!(call(&record, &events, &k(), room), refused(18, &record, room));
                }
                assert_eq!(call(&record, &events, &k(), 4 * count + 4).number, 22);
            }
        }
        let events = [demounts(64), vec![wrong]].concat();
        for room in [0, 256, 260, 4096] {
            assert_eq!(call(&record, &events, &k(), room), refused(18, &record, room));
        }
    }
}

#[test]
fn what_is_broken_is_named() {
    let batch = Batch { events: &[bytes(&demounts(65)), vec![12; 9]].concat(), page_bytes: &[] };
    let rules: Vec<BatchRule> = batch.broken(0).iter().map(|broken| broken.rule).collect();
    let expected = [
        BatchRule::MoreThan64Events,
        BatchRule::BufferTooShort,
        BatchRule::PartEvent,
        BatchRule::OfEvent(FileRule::Kind),
    ];
    assert_eq!(rules, expected);
    assert_eq!(batch.broken(0)[3].position, Some(65));
    assert_eq!(BatchVerdict::on(&batch.broken(0)), BatchVerdict::NoRoom);
    assert_eq!(BatchVerdict::on(&batch.broken(0)[2..]), BatchVerdict::WrongEvents);
    assert_eq!(BatchVerdict::on(&[]), BatchVerdict::Taken);
    assert_eq!(BatchRule::every().len(), 10);
}

/// An event is wrong in a batch exactly where it is wrong in a recording: each byte of each kind changed.
#[test]
fn events_are_wrong_as_in_request_3() {
    let record = Record::power_on();
    for kind in 0..=255 {
        for byte in 1..8 {
            for value in [0, 1, 2, 3, 52, 128, 255] {
                let mut bytes = [kind, 0, 0, 0, 0, 0, 0, 0];
                bytes[byte] = value;
                let event = Event::read(bytes);
                let is_taken = reference::recording::replay(&file(&[event], &k())).verdict == Verdict::Taken;
                let number = call(&record, &[event], &k(), 4).number;
                assert_eq!(number, if is_taken { 0 } else { 22 }, "{bytes:?}");
            }
        }
    }
}

#[test]
fn other_numbers_are_left_to_the_calls() {
    let record = Record::power_on();
    for kind in [1, 2, 3, 6, 8, 11] {
        assert_eq!(answers(&record, &[event(kind, 16, 0), event(kind, 255, 0)], &[]), [[2, 0, 0, 0]; 2]);
    }
    assert_eq!(answers(&record, &[event(10, 0, 5), event(10, 0, 256)], &[]), [[13, 0, 0, 0]; 2]);
    assert_eq!(answers(&record, &[event(1, 3, 0x0010), event(2, 3, 0x0020)], &[]), [[6, 5, 0x24, 0]; 2]);
    assert_eq!(answers(&record, &[event(11, 3, 0x03FF), event(11, 3, 0)], &[]), [[14, 0, 0, 0]; 2]);
}

#[test]
fn in_and_out_use_protocol_20h_and_in_gives_no_page() {
    let called = call(&Record::power_on(), &[event(1, 3, 0x0020), event(1, 4, 0x0012)], &[], 100);
    assert_eq!(called.number, 0);
    assert_eq!(called.lent, [&[0; 8][..], &[FILL; 92]].concat());
    let mut expected = Record::power_on();
    expected.nexuses[3].registered = true;
    expected.nexuses[4].registered = true;
    assert_eq!(called.record, expected);
}

#[test]
fn pages_are_in_the_page_bytes_lent_with_the_batch() {
    // K, then K as ALL: each by its offset, in any order, twice, one within the other's bytes, and none at all
    let page_bytes = [k(), k_but(&[(4, 0x40)])].concat();
    let events = [out(5, 52, 52), out(3, 0, 52), out(3, 0, 52), out(6, 26, 52), out(7, 104, 0), out(7, 0, 0)];
    let expected = [[0; 4], [0; 4], [0; 4], [7, 5, 0x1A, 0], [7, 5, 0x1A, 0], [7, 5, 0x1A, 0]];
    assert_eq!(answers(&Record::power_on(), &events, &page_bytes), expected);
    let called = call(&Record::power_on(), &events[..2], &page_bytes, 8);
    assert_eq!((called.record.selected_place(5), called.record.selected_place(3)), (0, 1));
    assert_eq!(called.record.nexuses[5].scope, 2);
    // bytes that nobody uses, before and after
    let page_bytes = [&[9; 300][..], &k(), &[9; 3]].concat();
    assert_eq!(call(&Record::power_on(), &[out(3, 300, 52)], &page_bytes, 4).record, after_p2().record);
    // the next batch has its own
    let first = call(&Record::power_on(), &[out(3, 0, 52)], &k(), 4).record;
    assert_eq!(call(&first, &[out(3, 0, 52)], &[], 4), refused(22, &first, 4));
}

/// Every record one bit away from one that is well formed, if it isn't well formed itself.
fn one_bit_away(record: &Record) -> Vec<Record> {
    let bytes = record_bytes::give(record);
    let turned = (0..8 * bytes.len()).filter_map(|bit| {
        let mut turned = bytes.clone();
        turned[bit / 8] ^= 1 << (bit % 8);
        record_bytes::load(&turned)
    });
    turned.filter(|record| !reference::well_formed::is_well_formed(record)).collect()
}

#[test]
fn a_record_that_is_not_well_formed_answers_1_until_power_on() {
    let events = [&p7()[..], &[event(0, 0, 0)], &p7()].concat();
    let expected = [&[[1, 0, 0, 0]; 6][..], &[[0; 4]], &P7_ANSWERS].concat();
    let end = call(&Record::power_on(), &p7(), &k(), 24).record;
    let records = one_bit_away(&mixed());
    assert!(records.len() > 3000, "{}", records.len());
    for record in records {
        // without power-on nothing changes
        let without = call(&record, &p7(), &k(), 30);
        assert_eq!(without.lent, [&[1, 0, 0, 0].repeat(6)[..], &[FILL; 6]].concat());
        assert_eq!((without.number, &without.record), (0, &record));
        // power-on mends it
        let called = call(&record, &events, &k(), 52);
        assert_eq!((called.number, called.lent, &called.record), (0, expected.concat(), &end));
        // the last event can
        let last = call(&record, &[event(3, 3, 1), event(0, 0, 0)], &[], 8);
        assert_eq!((last.lent, last.record), (vec![1, 0, 0, 0, 0, 0, 0, 0], Record::power_on()));
    }
}

#[test]
fn every_kind_answers_1_on_a_record_that_is_not_well_formed() {
    let events: Vec<Event> = (1..12).map(|kind| event(kind, 0, 0)).collect();
    assert_eq!(answers(&damaged(), &events, &[]), [[1, 0, 0, 0]; 11]);
    // a nexus above 15 and a place above 4 too: 1 comes first
    assert_eq!(answers(&damaged(), &[event(3, 16, 1), event(10, 0, 5)], &[]), [[1, 0, 0, 0]; 2]);
}

/// Replay's session of every kind, with a read that is refused, and power-on and page K again in its middle.
fn session() -> (Vec<Event>, Vec<u8>) {
    let (mut events, pages) = replay::session();
    events.insert(4, event(11, 3, 0x0000));
    let end = events.len() - 4;
    events.splice(end..end, [event(0, 0, 0), out(3, 0, 52)]);
    (events, pages)
}

/// The event as a command of the stream, made by hand.
fn command(event: &Event, pages: &[u8]) -> Command {
    let page = &pages[usize::from(event.page_offset)..][..usize::from(event.page_length)];
    match event.kind {
        1 => session::security_in(event.nexus, event.argument, 30),
        2 => session::security_out(event.nexus, page.to_vec()),
        kind => Command { nexus: event.nexus, argument: event.argument, ..session::event(kind) },
    }
}

/// The answers and the record of events sent one by one as commands of the stream.
fn one_by_one(record: &Record, events: &[Event], pages: &[u8]) -> (Vec<u8>, Record) {
    let mut drive = Drive::with(record.clone());
    let mut answers = Vec::new();
    for event in events {
        let reply = drive.answer(&command(event, pages));
        answers.push(reply.number);
        answers.extend(reply.sense);
    }
    (answers, drive.controller().record.clone())
}

#[test]
fn a_batch_is_its_events_sent_one_by_one() {
    let (events, pages) = session();
    for record in records() {
        for first in 0..events.len() {
            for count in 0..=events.len() - first {
                let events = &events[first..first + count];
                let called = call(&record, events, &pages, 4 * count);
                assert_eq!((called.lent, called.record), one_by_one(&record, events, &pages));
            }
        }
    }
    // refused ones included: what they are answered, and what they change
    let called = call(&mixed(), &[event(3, 4, 1), event(1, 6, 0x0033), event(3, 9, 1)], &[], 12);
    assert_eq!(called.lent, [3, 6, 0x2A, 0x11, 6, 5, 0x24, 0, 4, 6, 0x2A, 0x12]);
    let mut expected = mixed();
    expected.nexuses[4].changed_by_another_nexus = false;
    expected.nexuses[6].registered = true;
    expected.nexuses[9].changed_by_vendor_event = false;
    assert_eq!(called.record, expected);
}

#[test]
fn two_batches_in_a_row_are_one() {
    let (events, pages) = session();
    for record in records() {
        let whole = call(&record, &events, &pages, 4 * events.len());
        for cut in 0..=events.len() {
            let first = call(&record, &events[..cut], &pages, 4 * cut);
            let second = call(&first.record, &events[cut..], &pages, 4 * (events.len() - cut));
            assert_eq!([first.lent, second.lent].concat(), whole.lent);
            assert_eq!(second.record, whole.record);
        }
    }
}

#[test]
fn a_batch_from_power_on_is_the_replay_of_its_file() {
    let (events, pages) = session();
    for count in 0..=events.len() {
        let called = call(&Record::power_on(), &events[..count], &pages, 4 * count);
        let replayed = reference::recording::replay(&file(&events[..count], &pages));
        assert_eq!((called.lent, called.record), (replayed.answers, replayed.record));
    }
    let most = demounts(64);
    let called = call(&Record::power_on(), &most, &[], 256);
    assert_eq!(
        (called.lent, called.record),
        (reference::recording::replay(&file(&most, &[])).answers, Record::power_on())
    );
}
