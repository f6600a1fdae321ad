//! 02, request 3: what a replay writes, and the record at the end.

use crate::given::{after_p2, k, k_but, send, PROTOCOL, SET_PAGE};
use crate::recording::{answers, event, file, out};
use reference::answer::Refused;
use reference::controller::Controller;
use reference::record::Record;
use reference::recording::{replay, Event};

#[test]
fn four_bytes_an_event() {
    let writes = [out(3, 0, 52), event(3, 3, 1), event(3, 3, 0)];
    assert_eq!(answers(&writes, &k()), [[0; 4], [0; 4], [12, 7, 0x74, 7]]);
    // P7, with reads: 15 under DISABLE, after the set's release
    let p7 = [out(3, 0, 52), event(5, 0, 0), event(3, 3, 1), event(3, 3, 1), event(11, 3, 0x01FF)];
    let expected = [[0; 4], [0; 4], [4, 6, 0x2A, 0x12], [11, 7, 0x2A, 0x13], [15, 7, 0x74, 1]];
    assert_eq!(answers(&p7, &k()), expected);
    // P6: a fifth locked LOCAL set
    let p6: Vec<Event> = (0..5).map(|nexus| out(nexus, 0, 52)).collect();
    assert_eq!(answers(&p6, &k())[4], [10, 5, 0x55, 3]);
    let reads = [
        out(3, 0, 52),
        event(11, 3, 0x0000),
        event(11, 3, 0x0100),
        event(11, 3, 0x01FF),
        event(11, 3, 0x0005),
    ];
    let expected = [[0; 4], [16, 7, 0x74, 2], [0; 4], [17, 7, 0x74, 3], [14, 0, 0, 0]];
    assert_eq!(answers(&reads, &k()), expected);
}

#[test]
fn in_uses_protocol_20h_and_gives_no_page() {
    let mut expected = Record::power_on();
    expected.nexuses[3].registered = true;
    let replayed = replay(&file(&[event(1, 3, 0x0020)], &[]));
    assert_eq!((replayed.answers, replayed.record), (vec![0; 4], expected));
}

#[test]
fn power_on_in_the_middle() {
    let events = [out(3, 0, 52), event(3, 3, 0), event(0, 0, 0), event(3, 3, 0)];
    assert_eq!(answers(&events, &k()), [[0; 4], [12, 7, 0x74, 7], [0; 4], [0; 4]]);
    assert_eq!(replay(&file(&events, &k())).record, Record::power_on());
}

/// A session of every kind but power-on over three pages: K, K as ALL with every CK bit, and a supplemental key.
pub fn session() -> (Vec<Event>, Vec<u8>) {
    let all = k_but(&[(4, 0x40), (5, 0x47)]);
    let pages = [k(), all, k_but(&[(5, 0x08)])].concat();
    let events = vec![
        event(1, 5, 0x0020),
        out(3, 0, 52),
        out(3, 104, 52),
        event(11, 3, 0x0101),
        out(5, 52, 52),
        event(3, 5, 0),
        event(6, 3, 0),
        event(8, 3, 0),
        event(3, 5, 1),
        event(7, 0, 0),
        event(5, 0, 0),
        event(3, 3, 1),
        event(3, 3, 1),
        event(4, 0, 0),
        out(3, 0, 51),
        out(16, 0, 52),
        event(10, 0, 4),
        out(2, 0, 52),
        event(9, 0, 0),
        event(11, 2, 0x0000),
    ];
    (events, pages)
}

/// The same calls by hand, each on the controller that the one before left.
fn one_by_one(events: &[Event], pages: &[u8]) -> (Vec<u8>, Record) {
    let mut controller = Controller::power_on();
    let mut answers = Vec::new();
    for event in events {
        let page = &pages[usize::from(event.page_offset)..][..usize::from(event.page_length)];
        let outcome = match event.kind {
            1 => controller.security_in(event.nexus, PROTOCOL, event.argument, &mut []).map(|_| ()),
            2 => controller.security_out(event.nexus, PROTOCOL, SET_PAGE, page),
            3 => controller.write(event.nexus, event.argument == 1).map(|_| ()),
            4 => controller.logical_unit_reset(),
            5 => controller.demount(),
            6 => controller.nexus_reservation_loss(event.nexus),
            7 => controller.device_reservation_loss(),
            8 => controller.preempt(event.nexus),
            9 => controller.microcode(),
            10 => controller.vendor_release(event.argument),
            _ => controller.read(event.nexus, (event.argument >> 8) as u8, event.argument as u8).map(|_| ()),
        };
        answers.push(outcome.err().map_or(0, Refused::number));
        answers.extend(outcome.err().map_or([0; 3], Refused::sense));
    }
    (answers, controller.record)
}

#[test]
fn replay_is_the_calls_one_by_one() {
    let (events, pages) = session();
    let replayed = replay(&file(&events, &pages));
    let numbers: Vec<u8> = replayed.answers.iter().copied().step_by(4).collect();
    // preempt releases nexus 5's ALL set, demount nexus 3's LOCAL set, whose lock stays, microcode nexus 2's
    assert_eq!(numbers, [0, 0, 0, 0, 0, 12, 0, 0, 3, 0, 0, 4, 11, 0, 7, 2, 0, 0, 0, 4]);
    assert_eq!((replayed.answers, replayed.record), one_by_one(&events, &pages));
}

#[test]
fn a_cut_recording_gives_the_first_answers() {
    let (events, pages) = session();
    let whole = replay(&file(&events, &pages)).answers;
    for count in 0..=events.len() {
        let cut = replay(&file(&events[..count], &pages));
        assert_eq!(cut.answers, whole[..4 * count]);
        assert_eq!(cut.record, one_by_one(&events[..count], &pages).1);
    }
}

#[test]
fn record_after_p2() {
    assert_eq!(replay(&file(&[out(3, 0, 52)], &k())).record, after_p2().record);
    let mut controller = after_p2();
    send(&mut controller, 3, &k_but(&[(5, 0x08)])).expect("the key is taken");
    let pages = [k(), k_but(&[(5, 0x08)])].concat();
    assert_eq!(replay(&file(&[out(3, 0, 52), out(3, 52, 52)], &pages)).record, controller.record);
}
