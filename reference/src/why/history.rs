//! 02, request 8: the reason for a write, by the calls that were done before it.

use super::{Deed, Flag, InUse, Reason, Touch};
use crate::account::Rule;
use crate::answer::Refused;
use crate::controller::Controller;
use crate::record::Record;
use crate::recording::{run, Event, Moment, Recording, Verdict};
use crate::sizes::{NEXUSES, PLACES};
use crate::stream::kind;

/// Why there is no reason.
#[derive(Clone, Copy, PartialEq, Eq, PartialOrd, Ord, Debug)]
pub enum Refusal {
    /// 02, request 3: "refuses the file whole with 22".
    WrongRecording,
    /// "a number above the event count gets 19, after 22 and before 2"
    EventsAboveCount,
}

impl Refusal {
    /// The refusal's number.
    pub fn number(self) -> u8 {
        match self {
            Refusal::WrongRecording => Verdict::WrongRecording.number(),
            Refusal::EventsAboveCount => 19,
        }
    }
}

/// A write to be tried after a number of events.
#[derive(Clone, Copy, PartialEq, Eq, Debug)]
pub struct Question {
    pub events: u64,
    /// Any number: one above 15 is no nexus of the drive, whether a call could have it or not.
    pub nexus: u64,
    pub supported: bool,
}

/// A call that is done: the records around it, and what it says it did.
pub struct Done {
    pub event: Event,
    pub before: Record,
    pub after: Record,
    /// Its answer's number.
    pub answer: u8,
    /// The places of which it "established, replaced or released" the set.
    acted_on: [bool; PLACES],
    pub is_supplemental: bool,
}

impl Done {
    fn new(moment: &Moment) -> Done {
        let account = moment.drive.account();
        Done {
            event: *moment.event,
            before: moment.before.clone(),
            after: moment.drive.controller().record.clone(),
            answer: moment.reply.number,
            acted_on: std::array::from_fn(|place| account.acted_on(place)),
            is_supplemental: account.tells(Rule::AppendsSupplementalKey),
        }
    }

    /// Whether it is a page of the nexus.
    pub fn is_page_of(&self, nexus: usize) -> bool {
        self.event.kind == kind::OUT && usize::from(self.event.nexus) == nexus
    }

    /// Whether it is an accepted page of the nexus "that wasn't supplemental".
    pub fn is_lock_of(&self, nexus: usize) -> bool {
        self.is_page_of(nexus) && self.answer == 0 && !self.is_supplemental
    }

    /// Whether it acted on the set of a place.
    pub fn acted_on(&self, place: usize) -> bool {
        self.acted_on[place]
    }

    /// Whether it raised a flag: "before which the flag was clear and after which it was pending".
    pub fn raised(&self, flag: Flag, nexus: usize) -> bool {
        !flag.is_pending(&self.before.nexuses[nexus]) && flag.is_pending(&self.after.nexuses[nexus])
    }
}

/// The calls of a recording, all done.
pub struct History {
    pub calls: Vec<Done>,
}

impl History {
    /// The calls of a file that isn't refused.
    pub fn read(file: &[u8]) -> Result<History, Refusal> {
        Recording::read(file).map(|recording| History::of(&recording)).ok_or(Refusal::WrongRecording)
    }

    /// The calls of a recording, "from power-on".
    pub fn of(recording: &Recording) -> History {
        let mut calls = Vec::with_capacity(recording.events.len());
        run(recording, |moment| calls.push(Done::new(moment)));
        History { calls }
    }

    /// The reason for a write: 19 comes before 2.
    pub fn reason(&self, question: Question) -> Result<Reason, Refusal> {
        let Question { events, nexus, supported } = question;
        let calls = usize::try_from(events).ok().and_then(|events| self.calls.get(..events));
        let calls = calls.ok_or(Refusal::EventsAboveCount)?;
        let tried = usize::try_from(nexus).ok().filter(|&nexus| nexus < NEXUSES);
        Ok(match tried {
            Some(nexus) => Tried { calls, nexus, supported }.reason(),
            None => Reason::NoSuchNexus,
        })
    }
}

/// A write of a nexus, tried after some calls.
#[derive(Clone, Copy)]
pub struct Tried<'history> {
    pub calls: &'history [Done],
    pub nexus: usize,
    pub supported: bool,
}

static POWER_ON: Record = Record::power_on();

impl<'history> Tried<'history> {
    /// The record that the calls left.
    pub fn record(&self) -> &'history Record {
        self.calls.last().map_or(&POWER_ON, |call| &call.after)
    }

    /// "The reason must be the true one: the write, tried at that point, gives that answer". It "is tried, not made".
    pub fn reason(&self) -> Reason {
        let record = self.record();
        let in_use = InUse::of(record, self.nexus);
        match Controller::with(record.clone()).write(self.nexus as u8, self.supported) {
            Ok(_) => Reason::Passes(in_use),
            Err(Refused::ChangedByAnotherNexus) => self.pending(Flag::AnotherNexus),
            Err(Refused::ChangedByVendorEvent) => self.pending(Flag::VendorEvent),
            Err(Refused::KeyInstanceChanged) => Reason::Locked(self.first_touch_after_lock()),
            Err(Refused::ParametersNotUsable) => Reason::NotSupported(in_use),
            Err(refused) => {
                unreachable!("{refused:?} answers no write of nexus {} after power-on", self.nexus)
            }
        }
    }

    /// 3 or 4: by the latest call that raised the flag.
    fn pending(&self, flag: Flag) -> Reason {
        let raised = self.calls.iter().rposition(|call| call.raised(flag, self.nexus));
        let position = raised.expect("a flag is clear at power-on, so that some call raised it");
        Reason::Pending(flag, self.touch(position, self.calls[position].before.selected_place(self.nexus)))
    }

    /// The position of the lock: "the nexus's latest accepted page that wasn't supplemental".
    pub fn lock(&self) -> Option<usize> {
        self.calls.iter().rposition(|call| call.is_lock_of(self.nexus))
    }

    /// What the calls after the lock did to "the set in use": "the one in the place that the lock left the nexus using".
    pub fn touches_after_lock(self) -> impl Iterator<Item = Touch> + 'history {
        self.lock().into_iter().flat_map(move |lock| {
            let place = self.calls[lock].after.selected_place(self.nexus);
            let after_lock = lock + 1..self.calls.len();
            after_lock.filter(move |&at| self.calls[at].acted_on(place)).map(move |at| self.touch(at, place))
        })
    }

    /// 11: "the first call after the lock", so that "no earlier call after the lock touched that set in such a way".
    fn first_touch_after_lock(&self) -> Touch {
        self.touches_after_lock().next().expect("the set that the lock left in use was touched")
    }

    /// What the call at a position did to the set of a place.
    pub fn touch(&self, position: usize, place: usize) -> Touch {
        let call = &self.calls[position];
        let deed = Deed::of(&call.before.places[place], &call.after.places[place]);
        Touch { position, kind: call.event.kind, nexus: call.event.nexus, place, deed }
    }
}
