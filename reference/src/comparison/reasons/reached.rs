//! What the reasons came to, counted: a run that never came to something on the list fails.

use super::case::{Case, Events, Way};
use super::directed::limits;
use super::past::situations;
use super::situations::Situation;
use crate::codes::encryption;
use crate::comparison::recordings::case::Group;
use crate::comparison::recordings::counts::{Counts, Groups, Titled};
use crate::comparison::recordings::course::Reaches;
use crate::recording::{broken_rules, FileRule};
use crate::sizes::{NEXUSES, PLACES};
use crate::stream::kind;
use crate::why::{Asked, Deed, Flag, History, InUse, Question, Reason, Touch, Tried};

/// What a call did: its kind, the deed and the place.
type Act = (u8, Deed, usize);

/// Something to come to.
#[derive(Clone, Copy, PartialEq, Eq, PartialOrd, Ord, Debug)]
pub enum Item {
    /// A write that passes, by place, mode and support.
    Passes(usize, u8, bool),
    /// 12, by place.
    NotSupported(usize),
    /// 2, of nexus 16.
    NoSuchNexus,
    /// 3 or 4, by what the call did that raised the flag.
    Pending(Flag, Act),
    /// 11, by what the first call after the lock did.
    Locked(Act),
    Situation(Situation),
    /// An answer, by the nexus whose write is tried.
    OfNexus(u8, u64),
    /// 3, 4 or 11 by a call of this kind and nexus.
    ByNexus(u8, u8),
    /// A write that the recording has and that is refused, by its answer; a recording without any, with writes and
    /// without events.
    RefusedWrite(u8),
    NoRefusedWrite,
    NoEvents,
    /// A number of events, and a nexus, asked of a sound recording; 19 for a nexus above 15.
    EventsOfSound(Events),
    NexusOfSound(&'static str),
    EventsBeforeNexus,
    /// A number of events asked of a wrong recording.
    EventsOfWrong(Events),
    /// A rule that a file breaks alone.
    Broken(FileRule),
}

/// Everything a run has to come to, by groups.
fn wanted() -> Vec<Titled<Item>> {
    let passes = (0..PLACES).flat_map(|place| {
        let modes =
            (encryption::DISABLE..=encryption::ENCRYPT).map(move |mode| Item::Passes(place, mode, true));
        modes.chain(
            (encryption::DISABLE..=encryption::EXTERNAL).map(move |mode| Item::Passes(place, mode, false)),
        )
    });
    let situations = |every: Vec<Situation>| every.into_iter().map(Item::Situation).collect();
    let another = acts(Flag::AnotherNexus);
    let evicts = |act: &Act| act.1 == Deed::Evicted;
    // a locked nexus's set isn't evicted
    let locked = another.iter().filter(|act| !evicts(act)).copied().chain(acts(Flag::VendorEvent));
    let pending = |flag| acts(flag).into_iter().map(move |act| Item::Pending(flag, act)).collect();
    let nexuses = || 0..NEXUSES as u64;
    let answers = [0, 3, 4, 11, 12].into_iter();
    let callers = [kind::OUT, kind::NEXUS_RESERVATION_LOSS, kind::PREEMPT].into_iter();
    let events = || limits::EVENTS.map(Events::Digits).into_iter().chain(limits::PAST_COUNT);
    vec![
        ("0, by place, mode and support", passes.collect()),
        ("12, by place", (0..PLACES).map(Item::NotSupported).collect()),
        ("2", vec![Item::NoSuchNexus]),
        ("3, by kind, deed and place", pending(Flag::AnotherNexus)),
        ("4, by kind, deed and place", pending(Flag::VendorEvent)),
        ("11, by kind, deed and place", locked.map(Item::Locked).collect()),
        ("the history of 11", situations(Situation::every_of_locked())),
        ("the history of 3 and 4", situations(Situation::every_of_pending())),
        ("the history of 0", situations(Situation::every_of_passing())),
        (
            "answers by nexus",
            answers.flat_map(|answer| nexuses().map(move |nexus| Item::OfNexus(answer, nexus))).collect(),
        ),
        (
            "calls by nexus",
            callers.flat_map(|kind| nexuses().map(move |nexus| Item::ByNexus(kind, nexus as u8))).collect(),
        ),
        ("refused writes by answer", [2, 3, 4, 11, 12].map(Item::RefusedWrite).to_vec()),
        ("recordings", vec![Item::NoRefusedWrite, Item::NoEvents]),
        ("numbers of events", events().map(Item::EventsOfSound).collect()),
        ("nexuses", limits::NEXUSES.map(Item::NexusOfSound).to_vec()),
        ("19 before 2", vec![Item::EventsBeforeNexus]),
        ("numbers of events with a wrong file", events().map(Item::EventsOfWrong).collect()),
        ("rules of the file broken alone", FileRule::EVERY.map(Item::Broken).to_vec()),
    ]
}

/// All that calls can do to the set of a nexus so that a flag is raised.
fn acts(flag: Flag) -> Vec<Act> {
    let released =
        |kind: u8, places: std::ops::Range<usize>| places.map(move |place| (kind, Deed::Released, place));
    match flag {
        Flag::AnotherNexus => {
            let place_0 = [Deed::Established, Deed::Replaced].map(|deed| (kind::OUT, deed, 0));
            let evicted = (1..PLACES).map(|place| (kind::OUT, Deed::Evicted, place));
            place_0.into_iter().chain(evicted).chain(released(kind::PREEMPT, 0..PLACES)).collect()
        }
        Flag::VendorEvent => {
            let any = [kind::DEMOUNT, kind::MICROCODE, kind::VENDOR_RELEASE];
            let any = any.into_iter().flat_map(|kind| released(kind, 0..PLACES));
            any.chain(released(kind::NEXUS_RESERVATION_LOSS, 1..PLACES))
                .chain(released(kind::DEVICE_RESERVATION_LOSS, 0..1))
                .collect()
        }
    }
}

/// The groups of recordings that are asked for.
fn groups() -> Vec<(Group, usize)> {
    Group::OF_REASONS.into_iter().chain(Group::of_random()).collect()
}

/// The counts.
#[derive(Default)]
pub struct Reached {
    recordings: u64,
    refused: u64,
    reasons: u64,
    groups: Groups,
    counts: Counts<Item>,
}

impl Reaches for Reached {
    type Case = Case;

    fn count(&mut self, case: &Case) {
        self.recordings += 1;
        self.groups.add(&case.recording);
        match History::read(&case.recording.file) {
            Ok(history) => {
                self.count_questions(case, &history);
                self.count_writes(&history);
                self.count_reasons(case, &history);
            }
            Err(_) => self.count_wrong(case),
        }
    }

    fn recordings(&self) -> u64 {
        self.recordings
    }

    fn text(&self) -> String {
        let taken = self.recordings - self.refused;
        let text = format!("recordings: {taken} taken, {} refused; {} reasons\n", self.refused, self.reasons);
        text + &self.groups.text(&groups()) + &self.counts.text(&wanted())
    }

    fn missing_text(&self, random: bool) -> String {
        self.groups.missing_text(&groups(), random) + &self.counts.missing_text(&wanted())
    }
}

impl Reached {
    /// Counts the writes that are tried of a sound recording.
    fn count_reasons(&mut self, case: &Case, history: &History) {
        if !case.ways.contains(&Way::Every) {
            return;
        }
        for question in history.questions() {
            self.reasons += 1;
            if let Ok(reason) = history.reason(question) {
                self.count_reason(history, question, &reason);
            }
        }
    }

    /// Counts a reason and what came before it.
    fn count_reason(&mut self, history: &History, question: Question, reason: &Reason) {
        let act = |touch: &Touch| (touch.kind, touch.deed, touch.place);
        self.counts.add(match reason {
            Reason::Passes(InUse { place, encryption }) => {
                Item::Passes(*place, *encryption, question.supported)
            }
            Reason::NoSuchNexus => Item::NoSuchNexus,
            Reason::Pending(flag, touch) => Item::Pending(*flag, act(touch)),
            Reason::Locked(touch) => Item::Locked(act(touch)),
            Reason::NotSupported(InUse { place, .. }) => Item::NotSupported(*place),
        });
        if let Reason::Pending(_, touch) | Reason::Locked(touch) = reason {
            self.counts.add(Item::ByNexus(touch.kind, touch.nexus));
        }
        let Question { events, nexus, supported } = question;
        self.counts.add(Item::OfNexus(reason.answer(), nexus));
        if nexus < NEXUSES as u64 {
            let tried = Tried { calls: &history.calls[..events as usize], nexus: nexus as usize, supported };
            self.counts.add_all(situations(tried, reason).into_iter().map(Item::Situation));
        }
    }

    /// Counts the writes that the recording has.
    fn count_writes(&mut self, history: &History) {
        let refused: Vec<u8> = history.refused_writes().map(|(_, reason)| reason.answer()).collect();
        let writes = history.calls.iter().filter(|call| call.event.kind == kind::WRITE).count();
        if writes > 0 && refused.is_empty() {
            self.counts.add(Item::NoRefusedWrite);
        }
        if history.calls.is_empty() {
            self.counts.add(Item::NoEvents);
        }
        self.counts.add_all(refused.into_iter().map(Item::RefusedWrite));
    }

    /// Counts the single writes that are asked of a sound recording.
    fn count_questions(&mut self, case: &Case, history: &History) {
        for way in &case.ways {
            let Way::One { events, nexus, .. } = way else { continue };
            self.counts.add(Item::EventsOfSound(*events));
            let arguments = way.arguments(&case.recording.file);
            let arguments: Vec<&str> = arguments.iter().map(String::as_str).collect();
            let Some(Asked::One(question)) = Asked::read(&arguments) else { continue };
            match history.reason(question) {
                Ok(_) => self.counts.add(Item::NexusOfSound(nexus)),
                Err(_) if question.nexus >= NEXUSES as u64 => self.counts.add(Item::EventsBeforeNexus),
                Err(_) => {}
            }
        }
    }

    /// Counts a wrong recording.
    fn count_wrong(&mut self, case: &Case) {
        self.refused += 1;
        for way in &case.ways {
            if let Way::One { events, .. } = way {
                self.counts.add(Item::EventsOfWrong(*events));
            }
        }
        if let [rule] = broken_rules(&case.recording.file)[..] {
            self.counts.add(Item::Broken(rule));
        }
    }
}
