//! Reasoners with a fault.

use crate::reasoner::{
    asked, asking, changing, first_after, making, of_other_writes, question_of, raising, right,
    since_power_on, telling, touching, with_lock, wording,
};
use crate::written::{printed, refused, refused_22};
use reference::codes::encryption;
use reference::comparison::reasons::Given;
use reference::recording::{Header, Recording};
use reference::stream::kind;
use reference::why::{Asked, Deed, Done, Flag, History, InUse, Question, Reason, Refusal, Touch, Tried};

/// A name, the reasoner of a file with its arguments, and the longest short recording it may leave; `LONG` where a short
/// one doesn't show it.
pub type Fault = (&'static str, fn(&[u8], &[&str]) -> Given, usize);

/// Recordings in which such a fault shows aren't made short, as they have to be long.
pub const LONG: usize = usize::MAX;

pub const FAULTS: [Fault; 80] = [
    // which call, for 11
    ("last-touch", |file, it| touching(file, it, |tried, _| tried.touches_after_lock().last()), 150),
    ("second-touch", |file, it| touching(file, it, |tried, _| tried.touches_after_lock().nth(1)), 150),
    ("touch-before-the-lock", |file, it| touching(file, it, first_since_power_on), 150),
    ("last-touch-before-the-lock", |file, it| touching(file, it, last_before_lock), 150),
    ("lock-itself-touches", |file, it| touching(file, it, lock_itself), 150),
    ("touched-by-any-act", |file, it| touching(file, it, by_any_act), 220),
    ("not-touched-by-a-set-without-a-key", |file, it| touching(file, it, by_set_with_key), 150),
    ("touched-by-a-supplemental-key", |file, it| touching(file, it, by_supplemental_key), 220),
    (
        "touched-by-a-reset",
        |file, it| touching(file, it, |tried, _| by_kind(tried, kind::LOGICAL_UNIT_RESET)),
        150,
    ),
    (
        "touched-by-the-latest-demount",
        |file, it| touching(file, it, |tried, _| by_kind(tried, kind::DEMOUNT)),
        150,
    ),
    (
        "raiser-for-the-touch",
        |file, it| touching(file, it, |tried, _| latest_raiser(tried, &Flag::EVERY)),
        200,
    ),
    ("set-in-use-now", |file, it| touching(file, it, set_in_use_now), 200),
    (
        "told-in-place-in-use-now",
        |file, it| touching(file, it, |tried, touch| in_place(tried, touch, place_now)),
        150,
    ),
    ("set-in-use-before-the-lock", |file, it| touching(file, it, set_in_use_before_lock), 200),
    // which page is the lock
    ("first-lock", |file, it| touching(file, it, first_lock), 220),
    (
        "refused-page-is-the-lock",
        |file, it| touching(file, it, |tried, _| with_lock(tried, |call| call.is_page_of(tried.nexus))),
        200,
    ),
    ("page-refused-with-6-is-the-lock", |file, it| lock_refused_with(file, it, 6), 200),
    ("page-refused-with-8-is-the-lock", |file, it| lock_refused_with(file, it, 8), 200),
    ("page-refused-with-10-is-the-lock", |file, it| lock_refused_with(file, it, 10), 300),
    (
        "page-of-any-nexus-is-the-lock",
        |file, it| touching(file, it, |tried, _| with_lock(tried, is_page)),
        200,
    ),
    ("public-with-sdk-is-no-lock", public_with_sdk_is_no_lock, 150),
    ("public-is-no-lock", public_is_no_lock, 200),
    // which call, for 3 and 4
    ("latest-that-found-the-flag", |file, it| making(file, it, latest_that_found_it), 150),
    ("first-that-raised-it", |file, it| making(file, it, first_that_raised_it), 200),
    (
        "raiser-of-either-flag",
        |file, it| raising(file, it, |tried, _| latest_raiser(tried, &Flag::EVERY)),
        200,
    ),
    (
        "first-touch-for-the-raiser",
        |file, it| raising(file, it, |tried, _| tried.touches_after_lock().next()),
        150,
    ),
    ("latest-call-for-the-raiser", |file, it| raising(file, it, latest_call), 150),
    ("vendor-event-first", |file, it| making(file, it, vendor_event_first), 150),
    (
        "flag-in-place-in-use-now",
        |file, it| raising(file, it, |tried, touch| in_place(tried, touch, place_now)),
        200,
    ),
    ("flag-in-place-0", |file, it| raising(file, it, |tried, touch| in_place(tried, touch, |_| 0)), 150),
    // positions
    ("positions-from-1", |file, it| changing(file, it, |_, touch| touch.position += 1), 100),
    ("positions-from-power-on", |file, it| changing(file, it, from_power_on), 120),
    ("positions-from-the-lock", |file, it| changing(file, it, from_the_lock), 120),
    ("positions-back-from-the-write", |file, it| changing(file, it, back_from_the_write), 120),
    ("positions-in-a-byte", |file, it| changing(file, it, |_, touch| touch.position &= 0xFF), LONG),
    ("positions-below-4096", |file, it| changing(file, it, |_, touch| touch.position &= 0xFFF), LONG),
    // kind and nexus
    ("kind-6-as-7", |file, it| changing(file, it, |_, touch| touch.kind += u8::from(touch.kind == 6)), 150),
    ("kind-9-as-10", |file, it| changing(file, it, |_, touch| touch.kind += u8::from(touch.kind == 9)), 150),
    ("preempt-as-out", |file, it| changing(file, it, preempt_as_out), 150),
    (
        "nexus-of-the-write",
        |file, it| changing(file, it, |tried, touch| touch.nexus = tried.nexus as u8),
        150,
    ),
    ("nexus-0", |file, it| changing(file, it, |_, touch| touch.nexus = 0), 150),
    ("nexus-of-the-sets-owner", |file, it| changing(file, it, nexus_of_the_owner), 150),
    ("place-from-1", |file, it| changing(file, it, |_, touch| touch.place += 1), 100),
    // deeds
    ("evicted-as-replaced", |file, it| deed_as(file, it, Deed::Evicted, Deed::Replaced), 300),
    ("evicted-as-released", |file, it| deed_as(file, it, Deed::Evicted, Deed::Released), 300),
    ("established-as-replaced", |file, it| deed_as(file, it, Deed::Established, Deed::Replaced), 100),
    ("replaced-as-established", |file, it| deed_as(file, it, Deed::Replaced, Deed::Established), 150),
    ("replaced-by-another-as-evicted", |file, it| changing(file, it, replaced_by_another_as_evicted), 200),
    ("released-as-evicted", |file, it| deed_as(file, it, Deed::Released, Deed::Evicted), 100),
    ("deed-by-what-the-place-holds-now", |file, it| changing(file, it, deed_by_now), 200),
    ("deed-by-what-place-0-holds", |file, it| changing(file, it, deed_by_place_0), 150),
    // answers, and the set in use
    ("lock-before-the-flags", |file, it| making(file, it, lock_before_flags), 150),
    ("12-before-11", |file, it| making(file, it, twelve_before_eleven), 150),
    ("12-with-support", |file, it| asking(file, it, |it| Question { supported: false, ..it }), 80),
    (
        "support-the-other-way",
        |file, it| asking(file, it, |it| Question { supported: !it.supported, ..it }),
        80,
    ),
    ("12-for-external", |file, it| making(file, it, twelve_for_external), 60),
    ("place-of-the-set-always-0", |file, it| in_use_as(file, it, |_, it| InUse { place: 0, ..it }), 80),
    ("mode-of-place-0", |file, it| in_use_as(file, it, mode_of_place_0), 80),
    ("external-as-encrypted", |file, it| in_use_as(file, it, external_as_encrypt), 60),
    ("tried-and-made", tried_and_made, 150),
    ("never-locked", |file, it| making(file, it, never_locked), 150),
    // refusals and numbers
    ("19-before-22", nineteen_before_22, 60),
    ("2-before-19", |file, it| if is_above_15(it) { no_such_nexus() } else { right(file, it) }, 8),
    ("2-before-22", two_before_22, 60),
    (
        "22-for-19",
        |file, it| if right(file, it).errors.starts_with(b"19") { refused_22() } else { right(file, it) },
        8,
    ),
    ("the-last-event-is-above", |file, it| at_count(file, it, |events, count| events >= count), 8),
    (
        "one-above-is-taken",
        |file, it| asking_events(file, it, |events, count| events.min(count.max(events.saturating_sub(1)))),
        8,
    ),
    ("any-above-is-taken", |file, it| asking_events(file, it, |events, count| events.min(count)), 8),
    ("events-in-16-bits", |file, it| asking_digits(file, it, 0, 16), 16),
    ("events-in-32-bits", |file, it| asking_digits(file, it, 0, 32), 16),
    ("events-in-64-bits", |file, it| asking_digits(file, it, 0, 64), 32),
    ("nexus-in-4-bits", |file, it| asking(file, it, |it| Question { nexus: it.nexus & 15, ..it }), 8),
    ("nexus-in-8-bits", |file, it| asking_digits(file, it, 1, 8), 8),
    ("nexus-in-64-bits", |file, it| asking_digits(file, it, 1, 64), 8),
    // what is printed
    ("no-final-newline", |file, it| wording(file, it, |_, lines| lines.trim_end().to_string()), 8),
    ("position-before-the-kind", position_before_the_kind, 100),
    ("kind-and-position-for-3-too", kind_and_position_for_3_too, 100),
    (
        "short-names",
        |file, it| wording(file, it, |_, lines| lines.replace("SECURITY PROTOCOL OUT", "out")),
        150,
    ),
    ("passing-writes-too", |file, it| of_other_writes(file, it, passing_writes_too), 20),
    ("writes-after-themselves", |file, it| of_other_writes(file, it, writes_after_themselves), 150),
];

/// Looked for from power-on, and not from the lock.
fn first_since_power_on(tried: Tried, touch: Touch) -> Option<Touch> {
    let start = since_power_on(tried);
    (start..tried.calls.len())
        .find(|&at| tried.calls[at].acted_on(touch.place))
        .map(|at| tried.touch(at, touch.place))
}

fn last_before_lock(tried: Tried, touch: Touch) -> Option<Touch> {
    let before = (0..tried.lock()?).rev().find(|&at| tried.calls[at].acted_on(touch.place));
    before.map(|at| tried.touch(at, touch.place))
}

/// The lock's own call counts, where it acted on the place.
fn lock_itself(tried: Tried, touch: Touch) -> Option<Touch> {
    let lock = tried.lock()?;
    tried.calls[lock].acted_on(touch.place).then(|| tried.touch(lock, touch.place))
}

/// Whatever place a call acted on, it touched the set.
fn by_any_act(tried: Tried, touch: Touch) -> Option<Touch> {
    let mut after = tried.lock()? + 1..tried.calls.len();
    let acts = |at: &usize| (0..5).any(|place| tried.calls[*at].acted_on(place));
    after.find(acts).map(|at| tried.touch(at, touch.place))
}

/// A set that has no key touches nothing.
fn by_set_with_key(tried: Tried, touch: Touch) -> Option<Touch> {
    let set = |touch: &Touch| &tried.calls[touch.position].after.places[touch.place];
    let has_no_key = |touch: &Touch| set(touch).is_used() && !set(touch).holds_main_key();
    let told = tried.touches_after_lock().find(|touch| !has_no_key(touch));
    told.or(Some(Touch { position: tried.calls.len(), ..touch }))
}

/// A supplemental key for the set in use touches it.
fn by_supplemental_key(tried: Tried, touch: Touch) -> Option<Touch> {
    let mut after = tried.lock()? + 1..touch.position;
    let shares = |call: &Done| call.before.selected_place(usize::from(call.event.nexus)) == touch.place;
    let keys = |at: &usize| tried.calls[*at].is_supplemental && shares(&tried.calls[*at]);
    after.find(keys).map(|at| tried.touch(at, touch.place))
}

/// The latest call of a kind after the lock, whatever it did.
fn by_kind(tried: Tried, kind: u8) -> Option<Touch> {
    let lock = tried.lock()?;
    let place = tried.calls[lock].after.selected_place(tried.nexus);
    let latest = (lock + 1..tried.calls.len()).rev().find(|&at| tried.calls[at].event.kind == kind);
    latest.map(|at| tried.touch(at, place))
}

/// The call that raised a flag last, of those named.
fn latest_raiser(tried: Tried, flags: &[Flag]) -> Option<Touch> {
    let raised = |call: &Done| flags.iter().any(|flag| call.raised(*flag, tried.nexus));
    let at = tried.calls.iter().rposition(raised)?;
    Some(tried.touch(at, tried.calls[at].before.selected_place(tried.nexus)))
}

/// The place is the one that the nexus uses now.
fn set_in_use_now(tried: Tried, _: Touch) -> Option<Touch> {
    first_after(tried, tried.lock()?, tried.record().selected_place(tried.nexus))
}

/// The place is the one that the nexus used before the lock.
fn set_in_use_before_lock(tried: Tried, _: Touch) -> Option<Touch> {
    let lock = tried.lock()?;
    first_after(tried, lock, tried.calls[lock].before.selected_place(tried.nexus))
}

/// The oldest lock since power-on counts.
fn first_lock(tried: Tried, _: Touch) -> Option<Touch> {
    let start = since_power_on(tried);
    let lock = start + tried.calls[start..].iter().position(|call| call.is_lock_of(tried.nexus))?;
    first_after(tried, lock, tried.calls[lock].after.selected_place(tried.nexus))
}

/// A page that is refused with an answer is a lock too.
fn lock_refused_with(file: &[u8], arguments: &[&str], answer: u8) -> Given {
    touching(file, arguments, |tried, _| {
        let is_refused = |call: &Done| call.is_page_of(tried.nexus) && call.answer == answer;
        with_lock(tried, |call| call.is_lock_of(tried.nexus) || is_refused(call))
    })
}

/// An accepted page of whatever nexus.
fn is_page(call: &Done) -> bool {
    call.event.kind == kind::OUT && call.answer == 0
}

/// Locks whose page has some bytes don't count, where there is another lock.
fn locks_but(file: &[u8], arguments: &[&str], left_out: impl Fn(&[u8]) -> bool) -> Given {
    let Some(recording) = Recording::read(file) else { return right(file, arguments) };
    touching(file, arguments, |tried, _| {
        with_lock(tried, |call| {
            let page = recording.page(&call.event).unwrap_or_default();
            call.is_lock_of(tried.nexus) && !left_out(page)
        })
    })
}

/// The bit SDK is read in PUBLIC pages.
fn public_with_sdk_is_no_lock(file: &[u8], arguments: &[&str]) -> Given {
    locks_but(file, arguments, |page| page[4] >> 5 == 0 && page[5] & 8 != 0)
}

fn public_is_no_lock(file: &[u8], arguments: &[&str]) -> Given {
    locks_but(file, arguments, |page| page[4] >> 5 == 0)
}

/// The latest call that touched the set that the nexus used, whether the flag was pending or not.
fn latest_that_found_it(tried: Tried, right: Reason) -> Reason {
    let Reason::Pending(flag, touch) = right else { return right };
    let of_flag = |call: &Done| {
        let by_nexus = matches!(call.event.kind, kind::OUT | kind::PREEMPT);
        by_nexus == (flag == Flag::AnotherNexus) && !call.is_page_of(tried.nexus)
    };
    let used = |at: usize| tried.calls[at].before.selected_place(tried.nexus);
    let found = |at: &usize| of_flag(&tried.calls[*at]) && tried.calls[*at].acted_on(used(*at));
    let latest = (touch.position..tried.calls.len()).rev().find(found);
    Reason::Pending(flag, latest.map_or(touch, |at| tried.touch(at, used(at))))
}

/// The first call that ever raised the flag.
fn first_that_raised_it(tried: Tried, right: Reason) -> Reason {
    let Reason::Pending(flag, touch) = right else { return right };
    let first = tried.calls.iter().position(|call| call.raised(flag, tried.nexus)).unwrap_or(touch.position);
    Reason::Pending(flag, tried.touch(first, tried.calls[first].before.selected_place(tried.nexus)))
}

fn latest_call(tried: Tried, touch: Touch) -> Option<Touch> {
    Some(tried.touch(tried.calls.len() - 1, touch.place))
}

/// 4 comes before 3.
fn vendor_event_first(tried: Tried, right: Reason) -> Reason {
    match right {
        Reason::Pending(Flag::AnotherNexus, touch)
            if Flag::VendorEvent.is_pending(&tried.record().nexuses[tried.nexus]) =>
        {
            Reason::Pending(Flag::VendorEvent, latest_raiser(tried, &[Flag::VendorEvent]).unwrap_or(touch))
        }
        right => right,
    }
}

fn place_now(tried: Tried) -> usize {
    tried.record().selected_place(tried.nexus)
}

/// The same call is told for another place.
fn in_place(tried: Tried, touch: Touch, place: impl Fn(Tried) -> usize) -> Option<Touch> {
    Some(Touch { place: place(tried), ..touch })
}

fn from_power_on(tried: Tried, touch: &mut Touch) {
    touch.position -= since_power_on(tried).min(touch.position);
}

fn from_the_lock(tried: Tried, touch: &mut Touch) {
    touch.position -= tried.lock().map_or(0, |lock| lock + 1).min(touch.position);
}

fn back_from_the_write(tried: Tried, touch: &mut Touch) {
    touch.position = tried.calls.len() - touch.position;
}

fn preempt_as_out(_: Tried, touch: &mut Touch) {
    if touch.kind == kind::PREEMPT {
        touch.kind = kind::OUT;
    }
}

/// The nexus whose set it was.
fn nexus_of_the_owner(tried: Tried, touch: &mut Touch) {
    touch.nexus = tried.calls[touch.position].before.places[touch.place].owner;
}

/// One deed is told for another.
fn deed_as(file: &[u8], arguments: &[&str], from: Deed, to: Deed) -> Given {
    changing(file, arguments, |_, touch| {
        if touch.deed == from {
            touch.deed = to;
        }
    })
}

/// Another owner's set is an eviction in place 0 too.
fn replaced_by_another_as_evicted(tried: Tried, touch: &mut Touch) {
    let call = &tried.calls[touch.position];
    let [before, after] = [&call.before, &call.after].map(|record| record.places[touch.place].owner);
    if touch.deed == Deed::Replaced && before != after {
        touch.deed = Deed::Evicted;
    }
}

fn deed_by_now(tried: Tried, touch: &mut Touch) {
    let before = &tried.calls[touch.position].before.places[touch.place];
    touch.deed = Deed::of(before, &tried.record().places[touch.place]);
}

fn deed_by_place_0(tried: Tried, touch: &mut Touch) {
    let call = &tried.calls[touch.position];
    touch.deed = Deed::of(&call.before.places[0], &call.after.places[0]);
}

/// 11 before 3 and 4.
fn lock_before_flags(tried: Tried, right: Reason) -> Reason {
    let is_locked = tried.record().nexuses[tried.nexus].lock;
    match (right, tried.touches_after_lock().next()) {
        (Reason::Pending(..), Some(touch)) if is_locked => Reason::Locked(touch),
        _ => right,
    }
}

fn twelve_before_eleven(tried: Tried, right: Reason) -> Reason {
    let in_use = InUse::of(tried.record(), tried.nexus);
    let not_supported = !tried.supported && in_use.encryption == encryption::ENCRYPT;
    match right {
        Reason::Locked(_) if not_supported => Reason::NotSupported(in_use),
        right => right,
    }
}

/// EXTERNAL asks for support too.
fn twelve_for_external(tried: Tried, right: Reason) -> Reason {
    match right {
        Reason::Passes(in_use) if !tried.supported && in_use.encryption == encryption::EXTERNAL => {
            Reason::NotSupported(in_use)
        }
        right => right,
    }
}

/// A set in use is told in another way.
fn in_use_as(file: &[u8], arguments: &[&str], change: impl Fn(Tried, InUse) -> InUse) -> Given {
    making(file, arguments, |tried, right| match right {
        Reason::Passes(in_use) => Reason::Passes(change(tried, in_use)),
        Reason::NotSupported(in_use) => Reason::NotSupported(change(tried, in_use)),
        right => right,
    })
}

fn mode_of_place_0(tried: Tried, in_use: InUse) -> InUse {
    InUse { encryption: tried.record().places[0].encryption, ..in_use }
}

fn external_as_encrypt(_: Tried, in_use: InUse) -> InUse {
    let is_external = in_use.encryption == encryption::EXTERNAL;
    InUse { encryption: if is_external { encryption::ENCRYPT } else { in_use.encryption }, ..in_use }
}

/// A write that is tried takes the flag, so that the next one doesn't find it.
fn tried_and_made(file: &[u8], arguments: &[&str]) -> Given {
    telling(file, arguments, |history, question| {
        let right = history.reason(question)?;
        let is_second = question.supported && asked(&["--every"]) == asked(arguments);
        let made = match right {
            Reason::Pending(..) if is_second => {
                let record = &history.calls[question.events as usize - 1].after;
                Reason::Passes(InUse::of(record, question.nexus as usize))
            }
            right => right,
        };
        Ok(made.lines())
    })
}

fn never_locked(tried: Tried, right: Reason) -> Reason {
    match right {
        Reason::Locked(_) => Reason::Passes(InUse::of(tried.record(), tried.nexus)),
        right => right,
    }
}

/// The count is looked at before anything else in the file.
fn nineteen_before_22(file: &[u8], arguments: &[&str]) -> Given {
    let count = Header::read(file).map_or(0, |header| u64::from(header.event_count));
    match asked(arguments) {
        Asked::One(question) if question.events > count => refused("19 events above the count"),
        _ => right(file, arguments),
    }
}

fn is_above_15(arguments: &[&str]) -> bool {
    matches!(asked(arguments), Asked::One(question) if question.nexus > 15)
}

fn no_such_nexus() -> Given {
    printed(Reason::NoSuchNexus.lines())
}

/// Only a number of events above the count of a sound file comes before 2.
fn two_before_22(file: &[u8], arguments: &[&str]) -> Given {
    if Recording::read(file).is_none() && is_above_15(arguments) {
        no_such_nexus()
    } else {
        right(file, arguments)
    }
}

/// So many events of so many are refused with 19.
fn at_count(file: &[u8], arguments: &[&str], is_above: impl Fn(u64, u64) -> bool) -> Given {
    telling(file, arguments, |history, question| {
        if is_above(question.events, history.calls.len() as u64) {
            return Err(Refusal::EventsAboveCount);
        }
        Ok(history.reason(question)?.lines())
    })
}

/// Another number of events is taken, of so many.
fn asking_events(file: &[u8], arguments: &[&str], events: impl Fn(u64, u64) -> u64) -> Given {
    telling(file, arguments, |history, question| {
        let events = events(question.events, history.calls.len() as u64);
        Ok(history.reason(Question { events, ..question })?.lines())
    })
}

/// A number has so many bits; the arguments are EVENTS NEXUS SUPPORT.
fn asking_digits(file: &[u8], arguments: &[&str], which: usize, bits: u32) -> Given {
    let mut changed: Vec<String> = arguments.iter().map(|argument| argument.to_string()).collect();
    if let (3, Ok(number)) = (arguments.len(), arguments[which.min(arguments.len() - 1)].parse::<u128>()) {
        changed[which] = (number & ((1 << bits) - 1)).to_string();
    }
    let changed: Vec<&str> = changed.iter().map(String::as_str).collect();
    right(file, &changed)
}

fn position_before_the_kind(file: &[u8], arguments: &[&str]) -> Given {
    wording(file, arguments, |reason, lines| match reason {
        Reason::Locked(Touch { kind, position, .. }) => {
            lines.replacen(&format!("11 {kind} {position}"), &format!("11 {position} {kind}"), 1)
        }
        _ => lines,
    })
}

fn kind_and_position_for_3_too(file: &[u8], arguments: &[&str]) -> Given {
    wording(file, arguments, |reason, lines| match reason {
        Reason::Pending(Flag::AnotherNexus, Touch { kind, position, .. }) => {
            lines.replacen("3\n", &format!("3 {kind} {position}\n"), 1)
        }
        _ => lines,
    })
}

/// A line for each of some writes, tried after so many events.
fn lines_of_writes(history: &History, also_passing: bool, later: usize) -> String {
    let writes = history.calls.iter().enumerate().filter(|(_, call)| call.event.kind == kind::WRITE);
    let told = writes.filter(|(_, call)| also_passing || call.answer != 0).map(|(position, call)| {
        let reason =
            history.reason(question_of(position + later, &call.event)).expect("the recording has so many");
        format!("{position} {}\n", reason.sentence())
    });
    told.collect()
}

fn passing_writes_too(history: &History) -> String {
    lines_of_writes(history, true, 0)
}

/// The write itself is among the events that are played.
fn writes_after_themselves(history: &History) -> String {
    lines_of_writes(history, false, 1)
}
