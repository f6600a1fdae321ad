//! 02, request 7: the words beside the places, whom a set serves, and the flags by the words.

use crate::given::{k, k_but, send};
use reference::account::{Rule, Step};
use reference::answer::Refused;
use reference::codes::scope;
use reference::comparison::batch_builder::BatchParts;
use reference::comparison::numbers::Numbers;
use reference::comparison::page_builder::SetPage;
use reference::comparison::record_builder::{full, mixed, random_record, random_wrong_words};
use reference::comparison::session::{
    event, event_of, power_on, read, security_in, security_out, serves, vendor_release, write,
};
use reference::controller::Controller;
use reference::record::{Nexus, Record};
use reference::record_bytes::give;
use reference::recording::{replay, Event, Recording, Verdict};
use reference::selection_words::{in_words, nexuses_of};
use reference::stream::{kind, Command, Drive};
use reference::well_formed::is_well_formed;

/// Byte 4 of a page: LOCAL, LOCAL and locked, ALL, PUBLIC. Byte 5 with every CK bit.
const LOCAL: [(usize, u8); 2] = [(4, 0x20), (5, 0x47)];
const LOCKED: [(usize, u8); 2] = [(4, 0x21), (5, 0x47)];
const ALL: [(usize, u8); 2] = [(4, 0x40), (5, 0x47)];
const PUBLIC: [(usize, u8); 2] = [(4, 0x01), (5, 0x47)];

/// A nexus's page.
fn page(nexus: u8, changes: &[(usize, u8)]) -> Command {
    security_out(nexus, k_but(changes))
}

/// A drive after some calls from power-on, each of which is answered 0.
fn after(calls: &[Command]) -> Drive {
    let mut drive = Drive::new();
    for call in calls {
        assert_eq!(drive.answer(call).number, 0, "{call:?}");
    }
    drive
}

/// The words that kind 13 tells of places 0 to 4, which are the record's; 16 ones in all.
fn words(drive: &mut Drive) -> [u64; 5] {
    let told = [0, 1, 2, 3, 4].map(|place| drive.answer(&serves(place)).served().expect("the word is told"));
    assert_eq!(told, drive.controller().record.selection_words);
    assert_eq!(told.map(u64::count_ones).iter().sum::<u32>(), 16);
    told
}

/// Nexuses 0, 1, 2 and 3 in places 1 to 4, with this byte 4.
fn four(changes: &[(usize, u8)]) -> Vec<Command> {
    (0..4).map(|nexus| page(nexus, changes)).collect()
}

#[test]
fn at_power_on_16_ones_for_place_0() {
    assert_eq!(words(&mut Drive::new()), [0xFFFF, 0, 0, 0, 0]);
    assert_eq!(words(&mut after(&[page(3, &LOCAL), power_on()])), [0xFFFF, 0, 0, 0, 0]);
}

#[test]
fn after_pages() {
    let rows: [(&str, Vec<Command>, [u64; 5]); 14] = [
        ("PUBLIC", vec![page(3, &PUBLIC)], [0xFFFF, 0, 0, 0, 0]),
        ("LOCAL", vec![page(3, &LOCAL)], [0xFFF7, 0x0008, 0, 0, 0]),
        ("LOCAL of nexus 0", vec![page(0, &LOCAL)], [0xFFFE, 0x0001, 0, 0, 0]),
        ("LOCAL of nexus 15", vec![page(15, &LOCAL)], [0x7FFF, 0x8000, 0, 0, 0]),
        ("LOCAL in its own place", vec![page(3, &LOCAL), page(3, &LOCKED)], [0xFFF7, 0x0008, 0, 0, 0]),
        ("two LOCAL", vec![page(3, &LOCAL), page(9, &LOCAL)], [0xFDF7, 0x0008, 0x0200, 0, 0]),
        ("four LOCAL", four(&LOCKED), [0xFFF0, 0x0001, 0x0002, 0x0004, 0x0008]),
        ("LOCAL becomes PUBLIC", vec![page(3, &LOCKED), page(3, &PUBLIC)], [0xFFFF, 0, 0, 0, 0]),
        ("LOCAL becomes ALL", vec![page(3, &LOCKED), page(3, &ALL)], [0xFFFF, 0, 0, 0, 0]),
        ("ALL", vec![page(6, &ALL)], [0xFFFF, 0, 0, 0, 0]),
        ("ALL becomes LOCAL", vec![page(6, &ALL), page(6, &LOCAL)], [0xFFBF, 0x0040, 0, 0, 0]),
        ("ALL replaces ALL", vec![page(6, &ALL), page(7, &ALL)], [0xFFFF, 0, 0, 0, 0]),
        (
            "ALL beside LOCAL",
            vec![page(3, &LOCAL), page(6, &ALL), page(9, &LOCAL)],
            [0xFDF7, 0x0008, 0x0200, 0, 0],
        ),
        // P5: nexus 4 evicts nexus 0 from place 1
        (
            "an eviction",
            [four(&LOCAL), vec![page(4, &LOCAL)]].concat(),
            [0xFFE1, 0x0010, 0x0002, 0x0004, 0x0008],
        ),
    ];
    for (name, calls, expected) in rows {
        assert_eq!(words(&mut after(&calls)), expected, "{name}");
    }
}

#[test]
fn after_a_supplemental_key_and_a_reset() {
    let mut drive = after(&[page(3, &LOCAL)]);
    let key = SetPage::supplemental(scope::LOCAL, 2, 7).bytes();
    assert_eq!(drive.answer(&security_out(3, key)).number, 0);
    assert_eq!(words(&mut drive), [0xFFF7, 0x0008, 0, 0, 0]);
    assert_eq!(drive.answer(&event(kind::LOGICAL_UNIT_RESET)).number, 0);
    assert_eq!(words(&mut drive), [0xFFF7, 0x0008, 0, 0, 0]);
}

#[test]
fn after_releases() {
    // nexuses 0 to 3 in places 1 to 4, nexus 6 ALL
    let taken = [four(&LOCAL), vec![page(6, &ALL)]].concat();
    let rows = [
        ("demount", event(kind::DEMOUNT), [0xFFFF, 0, 0, 0, 0]),
        ("nexus loss", event_of(kind::NEXUS_RESERVATION_LOSS, 1), [0xFFF2, 0x0001, 0, 0x0004, 0x0008]),
        (
            "nexus loss of none",
            event_of(kind::NEXUS_RESERVATION_LOSS, 6),
            [0xFFF0, 0x0001, 0x0002, 0x0004, 0x0008],
        ),
        ("device loss", event(kind::DEVICE_RESERVATION_LOSS), [0xFFF0, 0x0001, 0x0002, 0x0004, 0x0008]),
        ("preempt", event_of(kind::PREEMPT, 2), [0xFFFF, 0, 0, 0, 0]),
        ("microcode", event(kind::MICROCODE), [0xFFFF, 0, 0, 0, 0]),
        ("release of 0", vendor_release(0), [0xFFF0, 0x0001, 0x0002, 0x0004, 0x0008]),
        ("release of 1", vendor_release(1), [0xFFF1, 0, 0x0002, 0x0004, 0x0008]),
        ("release of 2", vendor_release(2), [0xFFF2, 0x0001, 0, 0x0004, 0x0008]),
        ("release of 3", vendor_release(3), [0xFFF4, 0x0001, 0x0002, 0, 0x0008]),
        ("release of 4", vendor_release(4), [0xFFF8, 0x0001, 0x0002, 0x0004, 0]),
    ];
    for (name, call, expected) in rows {
        let mut drive = after(&taken);
        assert_eq!(drive.answer(&call).number, 0);
        assert_eq!(words(&mut drive), expected, "{name}");
        assert_eq!(drive.answer(&call).number, 0);
        assert_eq!(words(&mut drive), expected, "{name}, and again");
    }
}

#[test]
fn refused_calls_leave_the_words() {
    // P6: all four are locked
    let mut drive = after(&four(&LOCKED));
    for (call, number) in [
        (page(4, &LOCAL), 10),
        (page(4, &[(4, 0x61)]), 8),
        (security_out(4, k()[..51].to_vec()), 7),
        (security_in(4, 0x0021, 0), 6),
        (Command { protocol: 0x21, ..page(4, &ALL) }, 5),
        (write(16, true), 2),
        (write(0, false), 12),
        (vendor_release(5), 13),
        (read(0, 3, 0), 14),
        (serves(5), 13),
    ] {
        assert_eq!(drive.answer(&call).number, number, "{call:?}");
        assert_eq!(words(&mut drive), [0xFFF0, 0x0001, 0x0002, 0x0004, 0x0008], "{call:?}");
    }
}

#[test]
fn kind_13_changes_nothing() {
    let mut controller = Controller::with(mixed());
    for (place, word) in [(0, 0x7FF6), (1, 0x0001), (2, 0x0008), (3, 0), (4, 0x8000)] {
        assert_eq!(controller.serves(place), Ok(word));
    }
    for place in [5, 6, 255, 256, 257, 260, 0x0400, 0x8000, 0xFFFF] {
        assert_eq!(controller.serves(place), Err(Refused::PlaceAbove4));
    }
    assert_eq!(controller.record, mixed());
}

/// A call of every kind that takes a record.
fn every_call(nexus: u8) -> Vec<Command> {
    vec![
        security_in(nexus, 0x0020, 24),
        page(nexus, &LOCAL),
        write(nexus, true),
        event(kind::LOGICAL_UNIT_RESET),
        event(kind::DEMOUNT),
        event_of(kind::NEXUS_RESERVATION_LOSS, nexus),
        event(kind::DEVICE_RESERVATION_LOSS),
        event_of(kind::PREEMPT, nexus),
        event(kind::MICROCODE),
        vendor_release(1),
        read(nexus, 0, 255),
        serves(1),
        serves(5),
    ]
}

#[test]
fn a_record_with_wrong_words_is_answered_1_and_stays() {
    let mut numbers = Numbers::new(7);
    let mut wrong: Vec<Record> = Vec::new();
    for bit in 0..64 {
        let mut record = full([4, 3, 2, 1]);
        record.selection_words[bit % 5] ^= 1 << bit;
        wrong.push(record);
    }
    for _ in 0..200 {
        let mut record = random_record(&mut numbers);
        random_wrong_words(&mut numbers, &mut record);
        wrong.extend(Some(record).filter(|record| !is_well_formed(record)));
    }
    assert!(wrong.len() > 200);
    for record in wrong {
        let mut drive = Drive::with(record.clone());
        for call in every_call(4) {
            let reply = drive.answer(&call);
            assert_eq!((reply.number, reply.sense), (1, [0; 3]), "{call:?}");
            assert_eq!(give(&drive.controller().record), give(&record), "{call:?}");
        }
        let calls = [write(4, true), event(kind::MICROCODE), page(4, &ALL)];
        let reply = drive.answer(&BatchParts::of(&calls).command());
        assert_eq!((reply.number, reply.data), (0, vec![1, 0, 0, 0, 1, 0, 0, 0, 1, 0, 0, 0]));
        assert_eq!(drive.controller().record, record);
        let mended = [&calls[..1], &[power_on()], &[page(4, &LOCAL), write(4, true)]].concat();
        let reply = drive.answer(&BatchParts::of(&mended).command());
        assert_eq!(reply.data, [1, 0, 0, 0, 0, 0, 0, 0, 0, 0, 0, 0, 0, 0, 0, 0]);
        assert_eq!(words(&mut drive), [0xFFEF, 0x0010, 0, 0, 0]);
    }
}

#[test]
fn kind_13_is_no_event() {
    let event = Event { kind: kind::SERVES, ..Event::default() };
    let file = Recording { events: vec![event], page_bytes: Vec::new() }.bytes();
    assert_eq!(replay(&file).verdict, Verdict::WrongRecording);
    let reply = Drive::new().answer(&BatchParts::new(vec![event], Vec::new()).command());
    assert_eq!((reply.number, reply.data), (22, vec![0xA5; 4]));
}

/// Pages and events of a nexus, by which records change.
fn changes(nexus: u8, place: u16) -> Vec<Command> {
    let mut changes = every_call(nexus);
    changes.extend([page(nexus, &LOCKED), page(nexus, &ALL), page(nexus, &PUBLIC)]);
    changes.extend([vendor_release(place), vendor_release(0)]);
    changes
}

#[test]
fn after_every_call_each_word_is_what_the_scopes_say() {
    let mut numbers = Numbers::new(11);
    let mut moves = 0;
    for _ in 0..300 {
        let record = random_record(&mut numbers);
        for call in changes(numbers.below(16) as u8, numbers.below(5) as u16) {
            let mut drive = Drive::with(record.clone());
            drive.answer(&call);
            let after = drive.controller().record.clone();
            for (nexus, Nexus { scope, .. }) in after.nexuses.iter().enumerate() {
                // 01: "A LOCAL nexus uses its own place; PUBLIC and ALL nexuses use place 0."
                let places = (0..5).filter(|&place| after.selection_words[place] >> nexus & 1 == 1);
                let places: Vec<usize> = places.collect();
                let expected = match *scope {
                    scope::LOCAL => {
                        let own = |place: &usize| {
                            let set = &after.places[*place];
                            set.is_used() && usize::from(set.owner) == nexus
                        };
                        (1..5).find(own).expect("a LOCAL nexus owns a place")
                    }
                    _ => 0,
                };
                assert_eq!(places, [expected], "nexus {nexus} after {call:?}");
            }
            assert!(after.selection_words.iter().all(|word| word >> 16 == 0));
            let moved =
                |step: &&Step| matches!(step.rule, Rule::BitMovesToLocalPlace | Rule::BitMovesToPlaceZero);
            let turned: u32 = (0..5)
                .map(|place| (record.selection_words[place] ^ after.selection_words[place]).count_ones())
                .sum();
            let steps = drive.account().steps.iter().filter(moved).count();
            assert_eq!(turned as usize, 2 * steps, "{call:?}");
            moves += steps;
        }
    }
    assert!(moves > 1000, "{moves}");
}

/// The nexuses whose flag the words ask for: those whose bit is in another place's word, and those whose bit stays in the
/// word of a place that has another number. They were registered before and aren't the acting one.
fn flagged_by_words(before: &Record, after: &Record, acting: Option<usize>) -> Vec<usize> {
    let mut changed = 0;
    for place in 0..5 {
        let (old, new) = (before.selection_words[place], after.selection_words[place]);
        changed |= old ^ new;
        if before.places[place].number != after.places[place].number {
            changed |= old & new;
        }
    }
    let mut flagged = nexuses_of(changed);
    flagged.retain(|&nexus| before.nexuses[nexus].registered && Some(nexus) != acting);
    flagged
}

/// The nexuses that have a flag after a call and hadn't it before; first "another nexus", then "vendor event".
fn new_flags(before: &Record, after: &Record) -> [Vec<usize>; 2] {
    let new = |flag: fn(&Nexus) -> bool| {
        (0..16).filter(|&nexus| flag(&after.nexuses[nexus]) && !flag(&before.nexuses[nexus])).collect()
    };
    [new(|nexus| nexus.changed_by_another_nexus), new(|nexus| nexus.changed_by_vendor_event)]
}

#[test]
fn the_flags_from_old_and_new_words_are_the_same_as_before() {
    let mut numbers = Numbers::new(23);
    let mut given = [0; 2];
    for _ in 0..1500 {
        let mut record = random_record(&mut numbers);
        for nexus in &mut record.nexuses {
            (nexus.changed_by_another_nexus, nexus.changed_by_vendor_event) = (false, false);
        }
        let nexus = numbers.below(16) as u8;
        for call in changes(nexus, numbers.below(5) as u16) {
            let mut drive = Drive::with(record.clone());
            let number = drive.answer(&call).number;
            let after = drive.controller().record.clone();
            let (acting, another) = match call.kind {
                kind::OUT | kind::PREEMPT => (Some(usize::from(nexus)), true),
                _ => (None, false),
            };
            let flagged = flagged_by_words(&record, &after, acting);
            let expected = if another { [flagged, Vec::new()] } else { [Vec::new(), flagged] };
            assert_eq!(new_flags(&record, &after), expected, "{call:?} answered {number}");
            given[usize::from(!another)] += expected.concat().len();
        }
    }
    assert!(given.iter().all(|&count| count > 5000), "{given:?}");
}

#[test]
fn the_acting_nexus_is_not_told() {
    let mut controller = Controller::with(full([0, 1, 2, 3]));
    controller.record.places[2].ckorp = true;
    // nexus 1 preempts, and its own set in place 2 goes
    assert_eq!(controller.preempt(1), Ok(()));
    assert_eq!(controller.record.selection_words, [0xFFF2, 0x0001, 0, 0x0004, 0x0008]);
    assert_eq!(new_flags(&full([0, 1, 2, 3]), &controller.record), [vec![], vec![]]);
    // nexus 0 sends PUBLIC, and its set in place 1 goes
    assert_eq!(send(&mut controller, 0, &k_but(&PUBLIC)), Ok(()));
    assert_eq!(controller.record.selection_words, [0xFFF3, 0, 0, 0x0004, 0x0008]);
    assert_eq!(new_flags(&full([0, 1, 2, 3]), &controller.record), [vec![], vec![]]);
    // ALL tells those of place 0 but its sender
    assert_eq!(send(&mut controller, 9, &k_but(&ALL)), Ok(()));
    let told: Vec<usize> = (0..16).filter(|nexus| ![2, 3, 9].contains(nexus)).collect();
    assert_eq!(new_flags(&full([0, 1, 2, 3]), &controller.record), [told, vec![]]);
}

#[test]
fn words_in_words() {
    for (word, words) in [
        (0, "nobody"),
        (0x0001, "nexus 0"),
        (0x8000, "nexus 15"),
        (0x0003, "nexuses 0, 1"),
        (0x0007, "nexuses 0 to 2"),
        (0xFFF7, "nexuses 0 to 2, 4 to 15"),
        (0xFFE1, "nexuses 0, 5 to 15"),
        (0x6A01, "nexuses 0, 9, 11, 13, 14"),
        (0xFFFF, "nexuses 0 to 15"),
        (0x1_0000, "nexus 16"),
        (u64::MAX, "nexuses 0 to 63"),
    ] {
        assert_eq!(in_words(word), words);
    }
}
