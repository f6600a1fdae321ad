//! 02, request 8: why a write was stopped, from the words of the request, worked by hand.

use crate::recording::{event, file, out};
use crate::sent::{not_supported, pages, sent, supported, Page};
use reference::recording::{Event, Recording};
use reference::why::{Asked, Deed, Flag, History, InUse, Question, Reason, Refusal, Touch};

/// The events' own forms, by their kinds.
const POWER_ON: Event = event(0, 0, 0);
const RESET: Event = event(4, 0, 0);
const DEMOUNT: Event = event(5, 0, 0);
const DEVICE_LOSS: Event = event(7, 0, 0);
const MICROCODE: Event = event(9, 0, 0);

fn register(nexus: u8) -> Event {
    event(1, nexus, 0x0020)
}

fn history(events: &[Event]) -> History {
    History::read(&file(events, &pages().concat())).expect("the recording is sound")
}

/// The reason after all events, with support.
fn reason(events: &[Event], nexus: u64) -> Reason {
    reason_after(events, events.len(), nexus)
}

/// The reason after some of them.
fn reason_after(events: &[Event], count: usize, nexus: u64) -> Reason {
    let question = Question { events: count as u64, nexus, supported: true };
    history(events).reason(question).expect("there are so many events")
}

fn touch(position: usize, kind: u8, nexus: u8, place: usize, deed: Deed) -> Touch {
    Touch { position, kind, nexus, place, deed }
}

fn locked(position: usize, kind: u8, nexus: u8, place: usize, deed: Deed) -> Reason {
    Reason::Locked(touch(position, kind, nexus, place, deed))
}

fn another(position: usize, kind: u8, nexus: u8, place: usize, deed: Deed) -> Reason {
    Reason::Pending(Flag::AnotherNexus, touch(position, kind, nexus, place, deed))
}

fn vendor(position: usize, kind: u8, nexus: u8, place: usize, deed: Deed) -> Reason {
    Reason::Pending(Flag::VendorEvent, touch(position, kind, nexus, place, deed))
}

fn passes(place: usize, encryption: u8) -> Reason {
    Reason::Passes(InUse { place, encryption })
}

/// The lines of a reason.
fn lines(reason: Reason) -> [String; 2] {
    let text = reason.lines();
    let lines: Vec<String> = text.lines().map(str::to_string).collect();
    assert_eq!(text, format!("{}\n{}\n", lines[0], lines[1]));
    lines.try_into().expect("two lines")
}

#[test]
fn p7() {
    let events = [POWER_ON, sent(3, Page::K), DEMOUNT, supported(3), supported(3)];
    assert_eq!(reason_after(&events, 0, 3), passes(0, 0));
    assert_eq!(reason_after(&events, 1, 3), passes(0, 0));
    assert_eq!(reason_after(&events, 2, 3), passes(1, 2));
    let flag = reason_after(&events, 3, 3);
    assert_eq!(flag, vendor(2, 5, 0, 1, Deed::Released));
    assert_eq!(
        lines(flag),
        [
            "4",
            "a unit attention is pending: event 2 (demount) released the set in place 1, which this nexus used"
        ]
    );
    // after the write that took the flag, and after the next
    for count in [4, 5] {
        let lock = reason_after(&events, count, 3);
        assert_eq!(lock, locked(2, 5, 0, 1, Deed::Released));
        assert_eq!(
            lines(lock),
            [
                "11 5 2",
                "the nexus is locked: event 2 (demount) released the set in place 1, which this nexus used"
            ]
        );
    }
}

#[test]
fn p8() {
    let events = [sent(5, Page::LockedPublic), sent(6, Page::AllK), supported(5)];
    let flag = reason_after(&events, 2, 5);
    assert_eq!(flag, another(1, 2, 6, 0, Deed::Established));
    let established =
        "event 1 (SECURITY PROTOCOL OUT, nexus 6) established a set in place 0, which this nexus used";
    assert_eq!(lines(flag), ["3".to_string(), format!("a unit attention is pending: {established}")]);
    let lock = reason(&events, 5);
    assert_eq!(lock, locked(1, 2, 6, 0, Deed::Established));
    assert_eq!(lines(lock), ["11 2 1".to_string(), format!("the nexus is locked: {established}")]);
    // the sender's own writes pass
    assert_eq!(reason(&events, 6), passes(0, 2));
}

#[test]
fn each_answer_with_its_set() {
    let events = [sent(3, Page::K), sent(4, Page::External), sent(6, Page::AllExternal)];
    let tried = |nexus, supported| {
        history(&events).reason(Question { events: 3, nexus, supported }).expect("there are so many events")
    };
    assert_eq!(tried(3, true), passes(1, 2));
    assert_eq!(tried(3, false), Reason::NotSupported(InUse { place: 1, encryption: 2 }));
    assert_eq!(
        lines(tried(3, false)),
        ["12", "the set in place 1 has encryption mode 2 (ENCRYPT), and the volume doesn't support it"]
    );
    let under = "nothing stops this write: its block goes down";
    assert_eq!(
        lines(tried(3, true)),
        ["0".to_string(), format!("{under} encrypted under the set in place 1")]
    );
    for supported in [false, true] {
        assert_eq!(tried(4, supported), passes(2, 1));
        assert_eq!(
            lines(tried(4, supported)),
            ["0".to_string(), format!("{under} external under the set in place 2")]
        );
        assert_eq!(tried(0, supported), passes(0, 1));
        for nexus in [16, 17, 255, 256, 65_539, u64::MAX] {
            assert_eq!(tried(nexus, supported), Reason::NoSuchNexus);
        }
    }
    assert_eq!(lines(Reason::NoSuchNexus), ["2", "the drive has no nexus of that number"]);
    let default_set = reason(&[], 15);
    assert_eq!(lines(default_set), ["0".to_string(), format!("{under} clear under the set in place 0")]);
}

#[test]
fn events_above_the_count_get_19_after_22_and_before_2() {
    let sound = file(&[DEMOUNT, DEMOUNT], &[]);
    let asked = |file: &[u8], events, nexus| {
        let question = Question { events, nexus, supported: true };
        History::read(file).and_then(|history| history.reason(question))
    };
    for events in 0..=2 {
        assert_eq!(asked(&sound, events, 3), Ok(passes(0, 0)));
        assert_eq!(asked(&sound, events, 16), Ok(Reason::NoSuchNexus));
    }
    for events in [3, 4, 65_535, 65_536, 65_538, 1 << 32, u64::MAX] {
        for nexus in [3, 16, 256] {
            assert_eq!(asked(&sound, events, nexus), Err(Refusal::EventsAboveCount));
            assert_eq!(asked(&sound[..23], events, nexus), Err(Refusal::WrongRecording));
        }
    }
    assert_eq!((Refusal::WrongRecording.number(), Refusal::EventsAboveCount.number()), (22, 19));
    // no events at all
    let none = file(&[], &[]);
    assert_eq!(asked(&none, 0, 3), Ok(passes(0, 0)));
    assert_eq!(asked(&none, 1, 3), Err(Refusal::EventsAboveCount));
}

#[test]
fn the_first_call_after_the_lock_counts() {
    // established, replaced by another's, released, established again
    let lock = [sent(5, Page::LockedPublic)];
    let touches = [sent(6, Page::AllK), sent(7, Page::AllK), DEMOUNT, sent(8, Page::AllK)];
    let events = [&lock[..], &touches, &[supported(5), supported(5)]].concat();
    assert_eq!(reason(&events, 5), locked(1, 2, 6, 0, Deed::Established));
    // the same calls before the lock don't: the one after it does
    let events = [&touches[..], &lock, &[MICROCODE, supported(5)]].concat();
    assert_eq!(reason_after(&events, 5, 5), passes(0, 2));
    assert_eq!(reason(&events, 5), locked(5, 9, 0, 0, Deed::Released));
    // another place doesn't either: nexus 4's LOCAL set comes and goes
    let events =
        [&lock[..], &[sent(4, Page::K), event(10, 0, 1), sent(6, Page::AllK), supported(5)]].concat();
    assert_eq!(reason(&events, 5), locked(3, 2, 6, 0, Deed::Established));
    // nor the place that the nexus uses now: it was left with place 1, and uses place 0
    let events =
        [sent(3, Page::K), sent(6, Page::AllReleasableK), DEMOUNT, supported(3), sent(6, Page::AllK)];
    let events = [&events[..], &[supported(3)]].concat();
    assert_eq!(reason(&events, 3), locked(2, 5, 0, 1, Deed::Released));
}

#[test]
fn each_kind_that_touches_a_locked_nexuss_set() {
    let local = |touching: Event| reason(&[sent(3, Page::ReleasableK), touching, supported(3)], 3);
    for (touching, nexus) in [
        (DEMOUNT, 0),
        (event(6, 3, 0), 3),
        (event(8, 3, 0), 3),
        (event(8, 9, 0), 9),
        (MICROCODE, 0),
        (event(10, 0, 1), 0),
    ] {
        assert_eq!(local(touching), locked(1, touching.kind, nexus, 1, Deed::Released));
    }
    for left in
        [POWER_ON, RESET, DEVICE_LOSS, event(6, 4, 0), event(10, 0, 0), event(10, 0, 2), event(10, 0, 5)]
    {
        assert!(matches!(local(left), Reason::Passes(_)));
    }
    // place 0, of another nexus's ALL set
    let start = [sent(6, Page::AllReleasableK), sent(5, Page::LockedPublic)];
    let all = |touching: Event| reason(&[&start[..], &[touching, supported(5)]].concat(), 5);
    for touching in [DEMOUNT, DEVICE_LOSS, event(8, 9, 0), MICROCODE, event(10, 0, 0)] {
        assert_eq!(all(touching), locked(2, touching.kind, touching.nexus, 0, Deed::Released));
    }
    assert_eq!(all(sent(6, Page::AllK)), locked(2, 2, 6, 0, Deed::Replaced));
    assert_eq!(all(sent(7, Page::AllK)), locked(2, 2, 7, 0, Deed::Replaced));
    assert_eq!(all(event(6, 6, 0)), passes(0, 2));
    // the preemptor's own lock, without a flag
    assert_eq!(
        reason_after(&[sent(3, Page::ReleasableK), event(8, 3, 0)], 2, 3),
        locked(1, 8, 3, 1, Deed::Released)
    );
}

#[test]
fn the_lock_is_the_latest_accepted_page_that_was_not_supplemental() {
    // renewed by the next page: the touch before it is gone
    let events = [sent(3, Page::K), DEMOUNT, supported(3), sent(3, Page::K), MICROCODE, supported(3)];
    assert_eq!(reason_after(&events, 3, 3), locked(1, 5, 0, 1, Deed::Released));
    assert_eq!(reason_after(&events, 4, 3), passes(1, 2));
    assert_eq!(reason(&events, 3), locked(4, 9, 0, 1, Deed::Released));
    // supplemental keys are no lock and no touch
    let events = [sent(3, Page::K), sent(3, Page::Key), sent(3, Page::Key), DEMOUNT, supported(3)];
    assert_eq!(reason_after(&events, 3, 3), passes(1, 2));
    assert_eq!(reason(&events, 3), locked(3, 5, 0, 1, Deed::Released));
    let events = [
        sent(6, Page::LockedAllK),
        sent(5, Page::LockedPublic),
        sent(6, Page::AllKey),
        DEMOUNT,
        supported(5),
    ];
    assert_eq!(reason_after(&events, 3, 5), passes(0, 2));
    assert_eq!(reason(&events, 5), locked(3, 5, 0, 0, Deed::Released));
    // a PUBLIC page isn't supplemental, whatever its bit SDK
    let events =
        [sent(5, Page::LockedPublic), sent(6, Page::AllK), supported(5), sent(5, Page::LockedPublicWithSdk)];
    assert_eq!(reason(&events, 5), passes(0, 2));
    let events = [&events[..], &[sent(7, Page::AllK), supported(5)]].concat();
    assert_eq!(reason(&events, 5), locked(4, 2, 7, 0, Deed::Replaced));
    // pages that are refused, with 8, 7 and 3, and another nexus's page
    let refused = [sent(5, Page::Wrong), out(5, 0, 51), sent(4, Page::K)];
    let start = [sent(5, Page::LockedPublic), sent(6, Page::AllK), sent(5, Page::LockedPublic)];
    let events = [&start[..], &refused, &[sent(7, Page::AllK), supported(5)]].concat();
    assert_eq!(reason(&events, 5), locked(1, 2, 6, 0, Deed::Established));
    // a page with LOCK 0 takes the lock away
    let events = [sent(3, Page::K), sent(3, Page::UnlockedK), DEMOUNT, supported(3)];
    assert_eq!(reason(&events, 3), passes(0, 0));
    // moved from place 1 to place 0, whose set is the one in use
    let events =
        [sent(3, Page::K), sent(3, Page::LockedPublic), sent(4, Page::K), sent(6, Page::AllK), supported(3)];
    assert_eq!(reason_after(&events, 3, 3), passes(0, 0));
    assert_eq!(reason(&events, 3), locked(3, 2, 6, 0, Deed::Established));
}

#[test]
fn the_call_that_raised_a_flag() {
    // the second one finds it pending, and raises nothing
    let events = [register(5), sent(6, Page::AllK), sent(7, Page::AllK)];
    assert_eq!(reason(&events, 5), another(1, 2, 6, 0, Deed::Established));
    // taken by IN, a write, a read and a refused page, and raised by the next
    for taker in [register(5), supported(5), event(11, 5, 0), sent(5, Page::K)] {
        let events = [&events[..2], &[taker, sent(7, Page::AllK)]].concat();
        assert_eq!(reason_after(&events, 3, 5), passes(0, 2));
        assert_eq!(reason(&events, 5), another(3, 2, 7, 0, Deed::Replaced));
    }
    // both: 3 first, and each has its own call
    let events = [register(5), sent(6, Page::AllK), DEMOUNT, sent(7, Page::AllK), supported(5), supported(5)];
    assert_eq!(reason_after(&events, 4, 5), another(1, 2, 6, 0, Deed::Established));
    assert_eq!(reason_after(&events, 5, 5), vendor(2, 5, 0, 0, Deed::Released));
    assert_eq!(reason_after(&events, 6, 5), passes(0, 2));
    // a reset takes it, and nobody is registered
    let events = [register(5), sent(6, Page::AllK), RESET, sent(7, Page::AllK)];
    assert_eq!(reason(&events, 5), passes(0, 2));
}

#[test]
fn the_place_of_a_flag_is_the_one_used_when_it_came() {
    // P5: nexus 4 takes the place of nexus 0, whose writes go to place 0 now
    let mut events: Vec<Event> = (0..=4).map(|nexus| sent(nexus, Page::UnlockedK)).collect();
    assert_eq!(reason(&events, 0), another(4, 2, 4, 1, Deed::Evicted));
    assert_eq!(
        lines(reason(&events, 0))[1],
        "a unit attention is pending: event 4 (SECURITY PROTOCOL OUT, nexus 4) evicted the set in place 1, which \
         this nexus used"
    );
    events.push(supported(0));
    assert_eq!(reason(&events, 0), passes(0, 0));
    // a nexus reservation loss, and a preempt, are told with their nexus
    let events = [sent(3, Page::ReleasableK), event(6, 3, 0)];
    assert_eq!(
        lines(reason(&events, 3)),
        [
            "4",
            "a unit attention is pending: event 1 (nexus reservation loss, nexus 3) released the set in place 1, \
             which this nexus used"
        ]
    );
    let events = [sent(3, Page::ReleasableK), event(8, 255, 0), event(8, 9, 0)];
    assert_eq!(reason(&events, 3), another(2, 8, 9, 1, Deed::Released));
}

#[test]
fn the_flag_and_the_lock_may_have_different_calls() {
    // touched first by nexus 6, flagged by nexus 7
    let events =
        [sent(5, Page::LockedPublic), sent(6, Page::AllK), supported(5), sent(7, Page::AllK), supported(5)];
    assert_eq!(reason_after(&events, 4, 5), another(3, 2, 7, 0, Deed::Replaced));
    assert_eq!(reason(&events, 5), locked(1, 2, 6, 0, Deed::Established));
    // touched while not registered, so that no flag came of it
    let events =
        [sent(5, Page::LockedPublic), RESET, sent(6, Page::AllK), register(5), DEMOUNT, supported(5)];
    assert_eq!(reason_after(&events, 3, 5), locked(2, 2, 6, 0, Deed::Established));
    assert_eq!(reason_after(&events, 5, 5), vendor(4, 5, 0, 0, Deed::Released));
    assert_eq!(reason(&events, 5), locked(2, 2, 6, 0, Deed::Established));
}

#[test]
fn positions_are_those_of_the_whole_recording() {
    let first = [sent(3, Page::K), DEMOUNT, supported(3), POWER_ON];
    assert_eq!(reason(&first, 3), passes(0, 0));
    let events = [&first[..], &[sent(3, Page::K), supported(3), event(10, 0, 1), supported(3)]].concat();
    assert_eq!(reason_after(&events, 7, 3), vendor(6, 10, 0, 1, Deed::Released));
    assert_eq!(lines(reason(&events, 3))[0], "11 10 6");
    // the lock is gone with the power-on, though its set is touched after it
    let events = [sent(3, Page::LockedPublic), POWER_ON, sent(6, Page::AllK)];
    assert_eq!(reason(&events, 3), passes(0, 2));
}

#[test]
fn what_a_call_did() {
    let record = |events: &[Event]| history(events).calls.pop().expect("a call").after;
    let [empty, local, other_local, all, other_all] = [
        record(&[RESET]).places[0].clone(),
        record(&[sent(3, Page::K)]).places[1].clone(),
        record(&[sent(4, Page::UnlockedK)]).places[1].clone(),
        record(&[sent(3, Page::AllK)]).places[0].clone(),
        record(&[sent(4, Page::AllK)]).places[0].clone(),
    ];
    for (before, after, deed) in [
        (&local, &empty, Deed::Released),
        (&all, &empty, Deed::Released),
        (&empty, &local, Deed::Established),
        (&empty, &all, Deed::Established),
        (&local, &other_local, Deed::Evicted),
        (&local, &local, Deed::Replaced),
        (&all, &all, Deed::Replaced),
        (&all, &other_all, Deed::Replaced),
    ] {
        assert_eq!(Deed::of(before, after), deed);
    }
}

#[test]
fn a_write_is_tried_and_not_made() {
    let events = [register(5), sent(6, Page::AllK)];
    let history = history(&events);
    let question = Question { events: 2, nexus: 5, supported: false };
    let flag = Ok(another(1, 2, 6, 0, Deed::Established));
    assert_eq!(history.reason(question), flag);
    assert_eq!(history.reason(question), flag);
    assert_eq!(history.calls.len(), 2);
}

#[test]
fn every_reason_and_those_of_the_recordings_writes() {
    let events = [
        sent(3, Page::K),
        not_supported(3),
        supported(3),
        DEMOUNT,
        supported(3),
        supported(3),
        event(11, 3, 0x01FF),
        supported(16),
        not_supported(4),
    ];
    let history = history(&events);
    let every = history.lines(Asked::Every).expect("every write can be tried");
    let pairs: Vec<&str> = every.lines().collect();
    assert_eq!(pairs.len(), 2 * (events.len() + 1) * 17 * 2);
    let mut pairs = pairs.chunks(2);
    for count in 0..=events.len() as u64 {
        for nexus in 0..=16 {
            for supported in [false, true] {
                let reason = history.reason(Question { events: count, nexus, supported }).expect("a reason");
                assert_eq!(pairs.next(), Some(&lines(reason).each_ref().map(String::as_str)[..]));
            }
        }
    }
    let released = "event 3 (demount) released the set in place 1, which this nexus used";
    let writes = format!(
        "1 the set in place 1 has encryption mode 2 (ENCRYPT), and the volume doesn't support it\n\
         4 a unit attention is pending: {released}\n\
         5 the nexus is locked: {released}\n\
         7 the drive has no nexus of that number\n"
    );
    assert_eq!(history.lines(Asked::Writes), Ok(writes));
}

#[test]
fn what_arguments_ask_for() {
    let one = |events, nexus, supported| Some(Asked::One(Question { events, nexus, supported }));
    assert_eq!(Asked::read(&["5", "3", "1"]), one(5, 3, true));
    assert_eq!(Asked::read(&["0", "0", "0"]), one(0, 0, false));
    assert_eq!(Asked::read(&["007", "016", "0"]), one(7, 16, false));
    let long = "99999999999999999999";
    assert_eq!(Asked::read(&[long, long, "1"]), one(u64::MAX, u64::MAX, true));
    assert_eq!(Asked::read(&["--every"]), Some(Asked::Every));
    assert_eq!(Asked::read(&["--writes"]), Some(Asked::Writes));
    for wrong in [&[][..], &["5", "3"], &["5", "3", "2"], &["5", "3", ""], &["", "3", "1"], &["5", "-1", "1"]]
    {
        assert_eq!(Asked::read(wrong), None);
    }
    for wrong in
        [&["+5", "3", "1"][..], &["5", "3", "01"], &["5", "x", "1"], &["5", "3", "1", "1"], &["--all"]]
    {
        assert_eq!(Asked::read(wrong), None);
    }
}

/// The reason and nothing else: the answer is the one that the recording's own write got there.
#[test]
fn the_answer_is_the_one_that_the_write_gets() {
    let folder = concat!(env!("CARGO_MANIFEST_DIR"), "/../examples");
    for name in ["month", "restore"] {
        let file = std::fs::read(format!("{folder}/{name}.rec")).expect("the recording can be read");
        let history = History::of(&Recording::read(&file).expect("the recording is sound"));
        let refused: Vec<(usize, u8)> =
            history.refused_writes().map(|(position, reason)| (position, reason.answer())).collect();
        let writes =
            history.calls.iter().enumerate().filter(|(_, call)| call.event.kind == 3 && call.answer != 0);
        assert_eq!(refused, writes.map(|(position, call)| (position, call.answer)).collect::<Vec<_>>());
        assert!(!refused.is_empty());
    }
}
