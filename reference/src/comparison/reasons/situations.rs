//! What can come before a write that is tried, by its reason: the rules of the request that its history tests.

use crate::stream::kind;
use crate::why::Flag;

/// Something in the history of a write that is tried.
#[derive(Clone, Copy, PartialEq, Eq, PartialOrd, Ord, Debug)]
pub enum Situation {
    /// 11: how the lock came about.
    LockedLocal,
    LockedAll,
    LockedOverASet,
    LockedOverTheDefaultSet,
    /// 11: the nexus's own call of this kind touched the set, or another's did.
    TouchedByItself(u8),
    TouchedByAnother(u8),
    /// 11: by a set that has no key.
    TouchedWithoutKey,
    /// 11: the same place was touched before the lock too, or once more after it.
    TouchedBeforeLock,
    TouchedAgain,
    /// 11: a call after the lock acted on other places before one touched this.
    OtherPlaceFirst,
    /// 11: an accepted supplemental page after the lock, of the nexus or of the owner of the set in use.
    OwnSupplementalKey,
    SupplementalKeyOfAnother,
    /// 11: a page of the nexus after the lock that was refused with this answer, before a touch or after one.
    RefusedBeforeTouch(u8),
    RefusedBetweenTouches(u8),
    /// 11: a lock before the lock; one in another place; one whose set was touched before the lock.
    LockedBefore,
    LockedElsewhereBefore,
    LockedAndTouchedBefore,
    /// 11: a lock before a power-on.
    LockedBeforePowerOn,
    /// 11: the nexus uses another place now; the place holds another set now.
    UsesAnotherPlace,
    PlaceUsedAgain,
    /// 11: a reset between the lock and the touch, or after the touch.
    ResetBeforeTouch,
    ResetAfterTouch,
    /// 11: the call that raised a flag last isn't the one that touched the set first; that one raised none.
    AnotherRaisedLast,
    TouchedWithoutFlag,
    /// 11: after the touch a call of this kind took a flag.
    FlagTakenBy(u8),
    /// 11: for a write that 12 would answer.
    NotSupportedEither,
    /// 3 or 4: a later call would have raised the flag, which it found pending.
    FoundPending(Flag),
    /// 3 or 4: raised once before, and taken since then by a call of this kind.
    RaisedAgainAfter(Flag, u8),
    /// 3: the other flag is pending too, raised before or after it.
    BothEarlier,
    BothLater,
    /// 3 or 4: of a locked nexus whose set this call touched first, or another did.
    RaisedByFirstTouch(Flag),
    RaisedAfterFirstTouch(Flag),
    /// 3 or 4: of a nexus without a lock.
    RaisedWithoutLock(Flag),
    /// 3 or 4: the nexus uses another place now.
    RaisedInAnotherPlace(Flag),
    /// 3 or 4: after a power-on that isn't the first event.
    RaisedAfterPowerOn(Flag),
    /// 0: of a locked nexus, whatever other places met; after a lock whose set was touched.
    PassesLocked,
    PassesOtherPlaceTouched,
    PassesLockedAnew,
    /// 0: the set of its latest page was touched, but that page had LOCK 0.
    PassesUnlocked,
    /// 0: a lock and a touch before a power-on; only the lock before it.
    PassesAfterPowerOn,
    PassesTouchedAfterPowerOn,
}

use Situation::*;

/// The kinds of call that take a pending flag.
pub const TAKING: [u8; 5] = [kind::IN, kind::OUT, kind::WRITE, kind::LOGICAL_UNIT_RESET, kind::READ];

impl Situation {
    /// Every situation of a write that the lock stops.
    pub fn every_of_locked() -> Vec<Situation> {
        let refused = [6, 7, 8, 10]
            .into_iter()
            .flat_map(|answer| [RefusedBeforeTouch(answer), RefusedBetweenTouches(answer)]);
        let mut every: Vec<Situation> = refused.chain(TAKING.map(FlagTakenBy)).collect();
        every.extend([RefusedBeforeTouch(9), RefusedBetweenTouches(3), RefusedBetweenTouches(4)]);
        every.extend([kind::NEXUS_RESERVATION_LOSS, kind::PREEMPT].map(TouchedByItself));
        every.extend([kind::OUT, kind::PREEMPT].map(TouchedByAnother));
        every.extend([LockedLocal, LockedAll, LockedOverASet, LockedOverTheDefaultSet]);
        every.extend([TouchedWithoutKey, TouchedBeforeLock, TouchedAgain, OtherPlaceFirst]);
        every.extend([OwnSupplementalKey, SupplementalKeyOfAnother]);
        every.extend([LockedBefore, LockedElsewhereBefore, LockedAndTouchedBefore, LockedBeforePowerOn]);
        every.extend([UsesAnotherPlace, PlaceUsedAgain, ResetBeforeTouch, ResetAfterTouch]);
        every.extend([AnotherRaisedLast, TouchedWithoutFlag, NotSupportedEither]);
        every
    }

    /// Every situation of a write that finds a flag.
    pub fn every_of_pending() -> Vec<Situation> {
        let of_flag = |flag| {
            let again = TAKING.map(|kind| RaisedAgainAfter(flag, kind));
            let others = [
                FoundPending(flag),
                RaisedByFirstTouch(flag),
                RaisedAfterFirstTouch(flag),
                RaisedWithoutLock(flag),
                RaisedInAnotherPlace(flag),
                RaisedAfterPowerOn(flag),
            ];
            again.into_iter().chain(others)
        };
        Flag::EVERY.into_iter().flat_map(of_flag).chain([BothEarlier, BothLater]).collect()
    }

    /// Every situation of a write that passes.
    pub fn every_of_passing() -> Vec<Situation> {
        let locked = [PassesLocked, PassesOtherPlaceTouched, PassesLockedAnew];
        locked.into_iter().chain([PassesUnlocked, PassesAfterPowerOn, PassesTouchedAfterPowerOn]).collect()
    }
}
