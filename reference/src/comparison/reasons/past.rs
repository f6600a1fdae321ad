//! What came before a write that is tried.

use super::situations::Situation::{self, *};
use super::situations::TAKING;
use crate::codes::{encryption, scope};
use crate::recording::fields_of;
use crate::sizes::PLACES;
use crate::stream::kind;
use crate::why::{Done, Flag, Reason, Touch, Tried};

/// The situations of a write that is tried and its reason.
pub fn situations(tried: Tried, reason: &Reason) -> Vec<Situation> {
    let past = Past::of(tried);
    match reason {
        Reason::Locked(touch) => past.lock.map_or(Vec::new(), |lock| past.of_locked(lock, touch)),
        Reason::Pending(flag, touch) => past.of_pending(*flag, touch),
        Reason::Passes(_) => past.of_passing(),
        Reason::NoSuchNexus | Reason::NotSupported(_) => Vec::new(),
    }
}

/// The situations that are the case.
fn chosen<const COUNT: usize>(cases: [(Situation, bool); COUNT]) -> impl Iterator<Item = Situation> {
    cases.into_iter().filter(|(_, is_so)| *is_so).map(|(situation, _)| situation)
}

/// The flag that a call raises, if it raises one.
fn flag_of(call: &Done) -> Flag {
    match call.event.kind {
        kind::OUT | kind::PREEMPT => Flag::AnotherNexus,
        _ => Flag::VendorEvent,
    }
}

/// The calls before a write that is tried.
struct Past<'history> {
    tried: Tried<'history>,
    /// The position after the latest power-on event.
    start: usize,
    lock: Option<usize>,
    touches: Vec<Touch>,
}

impl<'history> Past<'history> {
    fn of(tried: Tried<'history>) -> Past<'history> {
        let power_on = tried.calls.iter().rposition(|call| call.event.kind == kind::POWER_ON);
        let start = power_on.map_or(0, |position| position + 1);
        let lock = tried.lock().filter(|&lock| lock >= start);
        let touches = lock.into_iter().flat_map(|_| tried.touches_after_lock()).collect();
        Past { tried, start, lock, touches }
    }

    /// The calls from one position to another, that one not included.
    fn calls(&self, from: usize, to: usize) -> &'history [Done] {
        &self.tried.calls[from..to]
    }

    /// The calls after a position.
    fn after(&self, position: usize) -> &'history [Done] {
        self.calls(position + 1, self.tried.calls.len())
    }

    fn is_lock(&self, call: &Done) -> bool {
        call.is_lock_of(self.tried.nexus)
    }

    /// The place that the nexus uses after some calls.
    fn place_after(&self, call: &Done) -> usize {
        call.after.selected_place(self.tried.nexus)
    }

    fn place_now(&self) -> usize {
        self.tried.record().selected_place(self.tried.nexus)
    }

    /// Whether one of some calls, of a kind, took one of these flags of the nexus.
    fn taken_by(&self, calls: &[Done], kind: u8, flags: &[Flag]) -> bool {
        let pending = |call: &Done, flag: &Flag| flag.is_pending(&call.before.nexuses[self.tried.nexus]);
        let clear = |call: &Done, flag: &Flag| !flag.is_pending(&call.after.nexuses[self.tried.nexus]);
        let takes = |call: &Done| flags.iter().any(|flag| pending(call, flag) && clear(call, flag));
        calls.iter().any(|call| call.event.kind == kind && takes(call))
    }

    /// Whether a lock among the calls up to a position left a set in use that a later one of them touched.
    fn touched_lock_before(&self, from: usize, to: usize) -> bool {
        let calls = self.calls(from, to);
        let locks = calls.iter().enumerate().filter(|(_, call)| self.is_lock(call));
        locks.into_iter().any(|(at, lock)| {
            let place = self.place_after(lock);
            calls[at + 1..].iter().take_while(|call| !self.is_lock(call)).any(|call| call.acted_on(place))
        })
    }

    /// The situations of a write that the lock stops.
    fn of_locked(&self, lock: usize, touch: &Touch) -> Vec<Situation> {
        let mut situations = vec![self.way_of_lock(lock)];
        situations.extend(self.actor(touch));
        situations.extend(self.around_lock(lock, touch));
        situations.extend(self.pages_after_lock(lock, touch));
        situations.extend(self.after_touch(touch));
        situations
    }

    fn way_of_lock(&self, lock: usize) -> Situation {
        let record = &self.tried.calls[lock].after;
        match record.nexuses[self.tried.nexus].scope {
            scope::LOCAL => LockedLocal,
            scope::ALL => LockedAll,
            _ if record.places[0].is_used() => LockedOverASet,
            _ => LockedOverTheDefaultSet,
        }
    }

    /// Whose call touched the set, where its kind has a nexus.
    fn actor(&self, touch: &Touch) -> Option<Situation> {
        let is_own = usize::from(touch.nexus) == self.tried.nexus;
        fields_of(touch.kind).filter(|fields| fields.nexus)?;
        Some(if is_own { TouchedByItself(touch.kind) } else { TouchedByAnother(touch.kind) })
    }

    /// What came before the lock, and between it and the touch.
    fn around_lock(&self, lock: usize, touch: &Touch) -> impl Iterator<Item = Situation> {
        let place = touch.place;
        let (before, between) = (self.calls(self.start, lock), self.calls(lock + 1, touch.position));
        let locks = || before.iter().filter(|call| self.is_lock(call));
        let elsewhere = |call: &Done| (0..PLACES).any(|other| other != place && call.acted_on(other));
        let of_another = |call: &Done| call.is_supplemental && !call.is_page_of(self.tried.nexus);
        let is_shared = |call: &Done| call.before.selected_place(usize::from(call.event.nexus)) == place;
        let reset = |call: &Done| call.event.kind == kind::LOGICAL_UNIT_RESET;
        chosen([
            (TouchedBeforeLock, before.iter().any(|call| call.acted_on(place))),
            (LockedBefore, locks().next().is_some()),
            (LockedElsewhereBefore, locks().any(|call| self.place_after(call) != place)),
            (LockedAndTouchedBefore, self.touched_lock_before(self.start, lock)),
            (LockedBeforePowerOn, self.calls(0, self.start).iter().any(|call| self.is_lock(call))),
            (OtherPlaceFirst, between.iter().any(elsewhere)),
            (
                OwnSupplementalKey,
                between.iter().any(|call| call.is_supplemental && call.is_page_of(self.tried.nexus)),
            ),
            (SupplementalKeyOfAnother, between.iter().any(|call| of_another(call) && is_shared(call))),
            (ResetBeforeTouch, between.iter().any(reset)),
        ])
    }

    /// The nexus's pages after the lock that were refused.
    fn pages_after_lock(&self, lock: usize, touch: &Touch) -> Vec<Situation> {
        let last = self.touches.last().map_or(touch.position, |touch| touch.position);
        let calls = self.tried.calls.iter().enumerate().skip(lock + 1);
        let pages = calls.filter(|(_, call)| call.is_page_of(self.tried.nexus) && call.answer != 0);
        pages
            .filter_map(|(position, page)| {
                let before = position < touch.position;
                let between = !before && position < last;
                before
                    .then_some(RefusedBeforeTouch(page.answer))
                    .or(between.then_some(RefusedBetweenTouches(page.answer)))
            })
            .collect()
    }

    /// What the touch left, and what came after it.
    fn after_touch(&self, touch: &Touch) -> Vec<Situation> {
        let (record, nexus) = (self.tried.record(), self.tried.nexus);
        let raised = |call: &Done| Flag::EVERY.into_iter().any(|flag| call.raised(flag, nexus));
        let after = self.after(touch.position);
        let in_use = record.selected_set(nexus);
        let set = &self.tried.calls[touch.position].after.places[touch.place];
        let situations = chosen([
            (TouchedWithoutKey, set.is_used() && !set.holds_main_key()),
            (TouchedAgain, self.touches.len() > 1),
            (UsesAnotherPlace, self.place_now() != touch.place),
            (PlaceUsedAgain, touch.place > 0 && record.places[touch.place].is_used()),
            (ResetAfterTouch, after.iter().any(|call| call.event.kind == kind::LOGICAL_UNIT_RESET)),
            (AnotherRaisedLast, after.iter().any(raised)),
            (TouchedWithoutFlag, !raised(&self.tried.calls[touch.position])),
            (NotSupportedEither, !self.tried.supported && in_use.encryption == encryption::ENCRYPT),
        ]);
        let taken = TAKING.into_iter().filter(|&kind| self.taken_by(after, kind, &Flag::EVERY));
        situations.chain(taken.map(FlagTakenBy)).collect()
    }

    /// The situations of a write that finds a flag.
    fn of_pending(&self, flag: Flag, touch: &Touch) -> Vec<Situation> {
        let nexus = self.tried.nexus;
        let raised_before = |raised: Flag| {
            let calls = self.calls(self.start, touch.position);
            calls.iter().rposition(|call| call.raised(raised, nexus)).map(|at| self.start + at)
        };
        let would_raise = |call: &Done| {
            let acts = !call.is_page_of(nexus) && call.acted_on(call.before.selected_place(nexus));
            acts && flag_of(call) == flag
        };
        let both = self.tried.record().nexuses[nexus].changed_by_vendor_event && flag == Flag::AnotherNexus;
        let first = self.touches.first().map(|touch| touch.position);
        let after = self.after(touch.position);
        let situations = chosen([
            (FoundPending(flag), after.iter().any(would_raise)),
            (BothEarlier, both && raised_before(Flag::VendorEvent).is_some()),
            (BothLater, both && after.iter().any(|call| call.raised(Flag::VendorEvent, nexus))),
            (RaisedByFirstTouch(flag), first == Some(touch.position)),
            (RaisedAfterFirstTouch(flag), first.is_some_and(|first| first < touch.position)),
            (RaisedWithoutLock(flag), self.lock.is_none()),
            (RaisedInAnotherPlace(flag), self.place_now() != touch.place),
            (RaisedAfterPowerOn(flag), self.start > 1),
        ]);
        let between = raised_before(flag).map(|before| self.calls(before + 1, touch.position));
        let taken = TAKING
            .into_iter()
            .filter(|&kind| between.is_some_and(|calls| self.taken_by(calls, kind, &[flag])));
        situations.chain(taken.map(|kind| RaisedAgainAfter(flag, kind))).collect()
    }

    /// The situations of a write that passes.
    fn of_passing(&self) -> Vec<Situation> {
        let is_locked = self.tried.record().nexuses[self.tried.nexus].lock;
        let calls = self.tried.calls;
        let before_start = self.calls(0, self.start).iter().any(|call| self.is_lock(call));
        let acts = |call: &Done| (0..PLACES).any(|place| call.acted_on(place));
        let situations = chosen([
            (PassesLocked, is_locked),
            (
                PassesOtherPlaceTouched,
                is_locked && self.lock.is_some_and(|lock| self.after(lock).iter().any(acts)),
            ),
            (
                PassesLockedAnew,
                is_locked && self.touched_lock_before(self.start, self.lock.unwrap_or(self.start)),
            ),
            (PassesUnlocked, !is_locked && !self.touches.is_empty()),
            (PassesAfterPowerOn, self.lock.is_none() && self.touched_lock_before(0, self.start)),
            (
                PassesTouchedAfterPowerOn,
                self.lock.is_none() && before_start && calls[self.start..].iter().any(acts),
            ),
        ]);
        situations.collect()
    }
}
