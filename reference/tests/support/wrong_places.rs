//! Drives that are wrong about the place of a LOCAL set, as those can be that look for it in words of bits (02, request 4);
//! the directed sessions are to find them.

use crate::{refuse, Fault, Moment};
use reference::answer::NO_SENSE;
use reference::codes::scope;
use reference::record::{Record, Set};
use reference::sizes::{NEXUSES, PLACES};
use reference::stream::{kind, Command, Drive, Reply};
use std::cell::Cell;

pub const PLACE_FAULTS: [Fault; 25] = [
    ("highest-empty-place", highest_empty_place, 2),
    ("place-0-among-the-empty", place_0_among_the_empty, 2),
    ("place-0-among-the-unlocked", place_0_among_the_unlocked, 7),
    ("one-place-too-high", one_place_too_high, 2),
    ("unlocked-before-empty", unlocked_before_empty, 3),
    ("nexus-0s-lock-for-empty-places", nexus_0s_lock_for_empty_places, 3),
    ("owner-0-taken-for-empty", owner_0_taken_for_empty, 3),
    ("word-of-the-page-before", word_of_the_page_before, 3),
    ("word-not-formed-after-own-release", word_not_formed_after_own_release, 6),
    ("word-not-formed-after-events", word_not_formed_after_events, 6),
    ("senders-lock", senders_lock, 6),
    ("last-senders-lock", last_senders_lock, 6),
    ("lock-of-the-nexus-of-that-number", lock_of_the_nexus_of_that_number, 6),
    ("locks-of-nexuses-0-to-7", locks_of_nexuses_0_to_7, 6),
    ("locks-as-the-places-were-taken", locks_as_the_places_were_taken, 7),
    ("lower-place-before-the-present-one", lower_place_before_the_present_one, 4),
    ("present-place-by-owner-alone", present_place_by_owner_alone, 5),
    ("locked-nexus-given-its-former-place", locked_nexus_given_its_former_place, 6),
    ("10-before-the-present-place", ten_before_the_present_place, 6),
    ("10-to-pages-of-every-scope", ten_to_pages_of_every_scope, 6),
    ("10-makes-an-all-nexus-public", ten_makes_an_all_nexus_public, 7),
    ("refused-page-evicts", refused_page_evicts, 6),
    ("present-place-draws-twice", present_place_draws_twice, 3),
    ("eviction-draws-once", eviction_draws_once, 6),
    ("evicted-nexus-not-flagged", evicted_nexus_not_flagged, 6),
];

/// Places 1 to 4 in a word; bit n is place n.
const LOCAL_PLACES: u8 = 0b11110;

/// The word of the places that are so.
fn word(is_so: impl Fn(usize) -> bool) -> u8 {
    (0..PLACES).filter(|&place| is_so(place)).fold(0, |word, place| word | 1 << place)
}

/// The place of a word's lowest bit.
fn lowest(word: u8) -> Option<usize> {
    (word != 0).then(|| word.trailing_zeros() as usize)
}

/// The place of a word's highest bit.
fn highest(word: u8) -> Option<usize> {
    word.checked_ilog2().map(|place| place as usize)
}

/// The word of empty LOCAL places.
fn empty_places(record: &Record) -> u8 {
    LOCAL_PLACES & word(|place| !record.places[place].is_used())
}

/// The owner byte of a place, which is 0 where it is empty.
fn owner(record: &Record, place: usize) -> usize {
    usize::from(record.places[place].owner)
}

/// The word of used LOCAL places whose owner has this lock.
fn used_places(record: &Record, lock: bool) -> u8 {
    let has_lock = |place| record.nexuses[owner(record, place)].lock == lock;
    LOCAL_PLACES & !empty_places(record) & word(has_lock)
}

/// A LOCAL page with SDK 0 over the record that it meets.
struct Local<'parts> {
    record: &'parts Record,
    nexus: usize,
    present: Option<usize>,
    empty: u8,
    unlocked: u8,
}

impl<'parts> Local<'parts> {
    /// The page at hand, if it is one with such an answer.
    fn answered(moment: &Moment<'parts>, answers: &[u8]) -> Option<Self> {
        let page = &moment.command.data;
        if moment.command.kind != kind::OUT || !answers.contains(&moment.reply.number) {
            return None;
        }
        let (record, nexus) = (moment.before, usize::from(moment.command.nexus));
        let present = record.local_place(nexus);
        let (empty, unlocked) = (empty_places(record), used_places(record, false));
        let is_local = page[4] >> 5 == scope::LOCAL && page[5] & 0x08 == 0;
        is_local.then_some(Local { record, nexus, present, empty, unlocked })
    }

    /// The place of 01.
    fn place(&self) -> Option<usize> {
        self.present.or(lowest(self.empty)).or(lowest(self.unlocked))
    }

    /// The place from which it evicts a nexus, if it does.
    fn evicts_from(&self) -> Option<usize> {
        lowest(self.unlocked).filter(|_| self.present.is_none() && self.empty == 0)
    }
}

/// The page gets the place that a wrong drive chooses, or 10.
fn choosing(moment: &mut Moment, choice: impl Fn(&Local) -> Option<usize>) {
    let Some(local) = Local::answered(moment, &[0, 10]) else { return };
    match choice(&local).filter(|&place| place < PLACES) {
        place if place == local.place() => {}
        Some(place) => give(moment, place),
        None => refuse_with_10(moment),
    }
}

/// The word of empty places is another one.
fn with_empty(moment: &mut Moment, empty: impl Fn(&Local) -> u8) {
    choosing(moment, |local| local.present.or(lowest(empty(local))).or(lowest(local.unlocked)));
}

/// The word of used places whose owner has lock 0 is formed by other locks.
fn with_locks(moment: &mut Moment, lock: impl Fn(&Local, usize) -> bool) {
    choosing(moment, |local| {
        let unlocked = LOCAL_PLACES & !local.empty & word(|place| !lock(local, place));
        local.present.or(lowest(local.empty)).or(lowest(unlocked))
    });
}

/// The page is answered 10.
fn refuse_with_10(moment: &mut Moment) {
    *moment.after = moment.before.clone();
    moment.after.nexuses[usize::from(moment.command.nexus)].registered = true;
    refuse(moment, 10, [5, 0x55, 0x03]);
}

/// The page gets a place. A set there is released, and so is one that its nexus has elsewhere.
fn give(moment: &mut Moment, place: usize) {
    let nexus = usize::from(moment.command.nexus);
    let mut record = moment.before.clone();
    if let Some(present) = record.local_place(nexus) {
        release(&mut record, present);
    }
    release(&mut record, place);
    let mut alone = Drive::new();
    alone.answer(moment.command);
    let number = record.counter.wrapping_add(1);
    record.counter = number;
    record.places[place] = Set { number, ..alone.controller().record.places[1].clone() };
    let (before, sent) = (record.nexuses[nexus], alone.controller().record.nexuses[nexus]);
    record.nexuses[nexus] = sent;
    record.nexuses[nexus].last_local = number;
    record.nexuses[nexus].saved_at_lock = if sent.lock { number } else { before.saved_at_lock };
    record.put_words_right();
    flag_changes(moment.before, &mut record, nexus);
    *moment.after = record;
    *moment.reply = Reply { number: 0, sense: NO_SENSE, data: Vec::new() };
}

/// A used place is released.
fn release(record: &mut Record, place: usize) {
    if record.places[place].is_used() {
        let owner = owner(record, place);
        record.nexuses[owner].scope = scope::PUBLIC;
        record.counter = record.counter.wrapping_add(1);
        record.places[place] = Set::empty(record.counter);
        record.put_words_right();
    }
}

/// Flags the others whose selection isn't what it was.
fn flag_changes(before: &Record, record: &mut Record, sender: usize) {
    let selected = |record: &Record, nexus| (record.selected_place(nexus), record.selected_set(nexus).number);
    for nexus in (0..NEXUSES).filter(|&nexus| nexus != sender && before.nexuses[nexus].registered) {
        if selected(before, nexus) != selected(record, nexus) {
            record.nexuses[nexus].changed_by_another_nexus = true;
        }
    }
}

/// Leading zeros are counted, not trailing zeros.
fn highest_empty_place(moment: &mut Moment) {
    choosing(moment, |local| local.present.or(highest(local.empty)).or(lowest(local.unlocked)));
}

/// An empty place 0 is in the word.
fn place_0_among_the_empty(moment: &mut Moment) {
    with_empty(moment, |local| local.empty | u8::from(!local.record.places[0].is_used()));
}

/// Place 0 is in the word if its owner has lock 0.
fn place_0_among_the_unlocked(moment: &mut Moment) {
    choosing(moment, |local| {
        let record = local.record;
        let is_unlocked = record.places[0].is_used() && !record.nexuses[owner(record, 0)].lock;
        local.present.or(lowest(local.empty)).or(lowest(local.unlocked | u8::from(is_unlocked)))
    });
}

/// Bit n is taken for place n + 1; place 5 is none.
fn one_place_too_high(moment: &mut Moment) {
    let next = |place| place + 1;
    choosing(moment, |local| {
        local.present.or(lowest(local.empty).map(next)).or(lowest(local.unlocked).map(next))
    });
}

/// The word of unlocked places is looked at first.
fn unlocked_before_empty(moment: &mut Moment) {
    choosing(moment, |local| local.present.or(lowest(local.unlocked)).or(lowest(local.empty)));
}

/// There is one word of places whose owner byte's nexus has lock 0, empty ones included.
fn nexus_0s_lock_for_empty_places(moment: &mut Moment) {
    choosing(moment, |local| {
        let unlocked = word(|place| !local.record.nexuses[owner(local.record, place)].lock);
        local.present.or(lowest(LOCAL_PLACES & unlocked))
    });
}

/// A place is empty where its owner byte is 0.
fn owner_0_taken_for_empty(moment: &mut Moment) {
    with_empty(moment, |local| LOCAL_PLACES & word(|place| owner(local.record, place) == 0));
}

thread_local! {
    /// What a wrong drive keeps from call to call: the word of empty places, the nexus whose page it took last, each nexus's
    /// lock, and the place that it lost.
    static KEPT_WORD: Cell<u8> = const { Cell::new(LOCAL_PLACES) };
    static LAST_SENDER: Cell<usize> = const { Cell::new(0) };
    static KEPT_LOCKS: Cell<[bool; NEXUSES]> = const { Cell::new([false; NEXUSES]) };
    static FORMER_PLACES: Cell<[Option<usize>; NEXUSES]> = const { Cell::new([None; NEXUSES]) };
}

/// The word is that of the LOCAL page before.
fn word_of_the_page_before(moment: &mut Moment) {
    let formed = Local::answered(moment, &[0, 10]).map(|local| local.empty);
    with_empty(moment, |_| KEPT_WORD.get());
    if let Some(formed) = formed {
        KEPT_WORD.set(formed);
    }
}

/// The word is kept, and formed again after every call but some.
fn keeping_word(moment: &mut Moment, forms_none: impl Fn(&Command) -> bool) {
    with_empty(moment, |_| KEPT_WORD.get());
    if moment.command.kind != kind::GIVE_RECORD && !forms_none(moment.command) {
        KEPT_WORD.set(empty_places(moment.after));
    }
}

/// A PUBLIC or ALL page doesn't put its sender's place back into the word.
fn word_not_formed_after_own_release(moment: &mut Moment) {
    keeping_word(moment, |command| {
        let scope = command.data.get(4).map(|byte| byte >> 5);
        command.kind == kind::OUT && scope != Some(scope::LOCAL)
    });
}

/// Events don't put the places that they release back into the word.
fn word_not_formed_after_events(moment: &mut Moment) {
    keeping_word(moment, |command| (kind::DEMOUNT..=kind::VENDOR_RELEASE).contains(&command.kind));
}

/// The sender's lock is asked for, not the owners'.
fn senders_lock(moment: &mut Moment) {
    with_locks(moment, |local, _| local.record.nexuses[local.nexus].lock);
}

/// The lock of the nexus that sent a page before is asked for.
fn last_senders_lock(moment: &mut Moment) {
    with_locks(moment, |local, _| local.record.nexuses[LAST_SENDER.get()].lock);
    if moment.command.kind == kind::OUT && moment.reply.number == 0 {
        LAST_SENDER.set(usize::from(moment.command.nexus));
    }
}

/// The lock of nexus n is asked for place n.
fn lock_of_the_nexus_of_that_number(moment: &mut Moment) {
    with_locks(moment, |local, place| local.record.nexuses[place].lock);
}

/// The word of locks has 8 bits: those of nexuses 8 to 15 are lost.
fn locks_of_nexuses_0_to_7(moment: &mut Moment) {
    with_locks(moment, |local, place| {
        let owner = owner(local.record, place);
        owner < 8 && local.record.nexuses[owner].lock
    });
}

/// Whether the drive has another record from here on.
fn starts(command: &Command) -> bool {
    matches!(command.kind, kind::POWER_ON | kind::LOAD_RECORD)
}

/// An owner's lock is the one with which it took its place, whatever its later pages said.
fn locks_as_the_places_were_taken(moment: &mut Moment) {
    with_locks(moment, |local, place| KEPT_LOCKS.get()[owner(local.record, place)]);
    let mut locks = KEPT_LOCKS.get();
    for (nexus, lock) in locks.iter_mut().enumerate() {
        let moves = moment.before.local_place(nexus) != moment.after.local_place(nexus);
        if moves || starts(moment.command) {
            *lock = moment.after.nexuses[nexus].lock;
        }
    }
    KEPT_LOCKS.set(locks);
}

/// A nexus moves to an empty place below its own.
fn lower_place_before_the_present_one(moment: &mut Moment) {
    choosing(moment, |local| {
        let lower = lowest(local.empty).filter(|&place| local.present.is_some_and(|present| place < present));
        lower.or(local.place())
    });
}

/// A nexus's present place is the lowest with its number in the owner byte, used or not.
fn present_place_by_owner_alone(moment: &mut Moment) {
    choosing(moment, |local| {
        lowest(LOCAL_PLACES & word(|place| owner(local.record, place) == local.nexus)).or(local.place())
    });
}

/// A locked nexus that lost its place is given it again while it is empty.
fn locked_nexus_given_its_former_place(moment: &mut Moment) {
    choosing(moment, |local| {
        let is_its_own =
            |place: &usize| local.record.nexuses[local.nexus].lock && local.empty >> place & 1 != 0;
        local.present.or(FORMER_PLACES.get()[local.nexus].filter(is_its_own)).or(local.place())
    });
    let mut former_places = FORMER_PLACES.get();
    for (nexus, former) in former_places.iter_mut().enumerate() {
        *former = moment.before.local_place(nexus).or(*former).filter(|_| !starts(moment.command));
    }
    FORMER_PLACES.set(former_places);
}

/// All places being locked is looked at before the sender's own.
fn ten_before_the_present_place(moment: &mut Moment) {
    choosing(moment, |local| local.place().filter(|_| local.empty | local.unlocked != 0));
}

/// PUBLIC and ALL pages look for a place too.
fn ten_to_pages_of_every_scope(moment: &mut Moment) {
    let is_taken = moment.command.kind == kind::OUT && moment.reply.number == 0;
    let has_place = |nexus: u8| moment.before.local_place(usize::from(nexus)).is_some();
    if is_taken && !has_place(moment.command.nexus) && used_places(moment.before, true) == LOCAL_PLACES {
        refuse_with_10(moment);
    }
}

/// A LOCAL page from the ALL nexus ends its scope though no place is found.
fn ten_makes_an_all_nexus_public(moment: &mut Moment) {
    if moment.reply.number == 10 {
        moment.after.nexuses[usize::from(moment.command.nexus)].scope = scope::PUBLIC;
    }
}

/// A place is made free before the page's fields are looked at.
fn refused_page_evicts(moment: &mut Moment) {
    let Some(local) = Local::answered(moment, &[8]) else { return };
    if let Some(place) = local.evicts_from() {
        release(moment.after, place);
        flag_changes(local.record, moment.after, local.nexus);
    }
}

/// The numbers that a LOCAL page gives come so many draws later.
fn drawing_more(moment: &mut Moment, more: u32) {
    let nexus = usize::from(moment.command.nexus);
    let place = moment.after.selected_place(nexus);
    let number = moment.after.counter.wrapping_add(more);
    moment.after.counter = number;
    moment.after.places[place].number = number;
    let sender = &mut moment.after.nexuses[nexus];
    sender.last_local = number;
    if sender.lock {
        sender.saved_at_lock = number;
    }
}

/// A present place is released first.
fn present_place_draws_twice(moment: &mut Moment) {
    if Local::answered(moment, &[0]).is_some_and(|local| local.present.is_some()) {
        drawing_more(moment, 1);
    }
}

/// The release of an evicted nexus's place draws nothing.
fn eviction_draws_once(moment: &mut Moment) {
    if Local::answered(moment, &[0]).is_some_and(|local| local.evicts_from().is_some()) {
        drawing_more(moment, u32::MAX);
    }
}

/// An evicted nexus isn't told.
fn evicted_nexus_not_flagged(moment: &mut Moment) {
    let place = Local::answered(moment, &[0]).and_then(|local| local.evicts_from());
    if let Some(evicted) = place.map(|place| owner(moment.before, place)) {
        moment.after.nexuses[evicted].changed_by_another_nexus =
            moment.before.nexuses[evicted].changed_by_another_nexus;
    }
}
