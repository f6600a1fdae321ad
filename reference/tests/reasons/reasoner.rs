//! The parts of a reasoner that the faults put together wrongly.

use crate::written::{printed, refused};
use reference::comparison::reasons::Given;
use reference::recording::{Event, Recording};
use reference::stream::kind;
use reference::why::{Asked, Done, History, Question, Reason, Refusal, Touch, Tried};

/// Lines, or the line of a refusal.
fn given(lines: Result<String, Refusal>) -> Given {
    lines.map_or_else(|refusal| refused(&format!("{} refused", refusal.number())), printed)
}

/// What is asked of a sound recording.
pub fn asked(arguments: &[&str]) -> Asked {
    Asked::read(arguments).expect("the arguments make sense")
}

/// The right reasoner.
pub fn right(file: &[u8], arguments: &[&str]) -> Given {
    given(History::read(file).and_then(|history| history.lines(asked(arguments))))
}

/// A reasoner that tells each reason by `tell`, with the question; a refused write's second line is what it tells after
/// the first.
pub fn telling(
    file: &[u8],
    arguments: &[&str],
    tell: impl Fn(&History, Question) -> Result<String, Refusal>,
) -> Given {
    given(History::read(file).and_then(|history| match asked(arguments) {
        Asked::One(question) => tell(&history, question),
        Asked::Every => history.questions().map(|question| tell(&history, question)).collect(),
        Asked::Writes => {
            of_writes(&history).map(|question| of_write(question.events, tell(&history, question)?)).collect()
        }
    }))
}

/// The line of a refused write at a position.
fn of_write(position: u64, lines: String) -> Result<String, Refusal> {
    let second = lines.split_once('\n').map_or("", |(_, second)| second);
    Ok(format!("{position} {second}"))
}

/// The question that a write of the recording asks.
pub fn question_of(position: usize, write: &Event) -> Question {
    let (events, nexus, supported) = (position as u64, write.nexus.into(), write.argument == 1);
    Question { events, nexus, supported }
}

/// The questions of the refused writes.
fn of_writes(history: &History) -> impl Iterator<Item = Question> + '_ {
    let refused = history
        .calls
        .iter()
        .enumerate()
        .filter(|(_, call)| call.event.kind == kind::WRITE && call.answer != 0);
    refused.map(|(position, call)| question_of(position, &call.event))
}

/// A reasoner that makes another reason of the right one, for a write of a nexus that there is.
pub fn making(file: &[u8], arguments: &[&str], make: impl Fn(Tried, Reason) -> Reason) -> Given {
    telling(file, arguments, |history, question| {
        let right = history.reason(question)?;
        let Question { events, nexus, supported } = question;
        let tried = |nexus| Tried { calls: &history.calls[..events as usize], nexus, supported };
        let nexus = usize::try_from(nexus).ok().filter(|&nexus| nexus < 16);
        Ok(nexus.map_or(right, |nexus| make(tried(nexus), right)).lines())
    })
}

/// A reasoner with another call for 11, where it finds one.
pub fn touching(file: &[u8], arguments: &[&str], find: impl Fn(Tried, Touch) -> Option<Touch>) -> Given {
    making(file, arguments, |tried, right| match right {
        Reason::Locked(touch) => Reason::Locked(find(tried, touch).unwrap_or(touch)),
        right => right,
    })
}

/// A reasoner with another call for 3 and 4, where it finds one.
pub fn raising(file: &[u8], arguments: &[&str], find: impl Fn(Tried, Touch) -> Option<Touch>) -> Given {
    making(file, arguments, |tried, right| match right {
        Reason::Pending(flag, touch) => Reason::Pending(flag, find(tried, touch).unwrap_or(touch)),
        right => right,
    })
}

/// A reasoner that tells something else of every call.
pub fn changing(file: &[u8], arguments: &[&str], change: impl Fn(Tried, &mut Touch)) -> Given {
    making(file, arguments, |tried, mut right| {
        if let Reason::Pending(_, touch) | Reason::Locked(touch) = &mut right {
            change(tried, touch);
        }
        right
    })
}

/// A reasoner that changes the text of each reason.
pub fn wording(file: &[u8], arguments: &[&str], word: impl Fn(&Reason, String) -> String) -> Given {
    telling(file, arguments, |history, question| {
        let reason = history.reason(question)?;
        Ok(word(&reason, reason.lines()))
    })
}

/// A reasoner that is asked something else of a sound recording.
pub fn asking(file: &[u8], arguments: &[&str], ask: impl Fn(Question) -> Question) -> Given {
    telling(file, arguments, |history, question| Ok(history.reason(ask(question))?.lines()))
}

/// A reasoner that goes on from other writes than the recording's refused ones.
pub fn of_other_writes(file: &[u8], arguments: &[&str], lines: impl Fn(&History) -> String) -> Given {
    match Recording::read(file) {
        Some(recording) if arguments == ["--writes"] => printed(lines(&History::of(&recording))),
        _ => right(file, arguments),
    }
}

/// The first of the calls after a position that acted on a place.
pub fn first_after(tried: Tried, position: usize, place: usize) -> Option<Touch> {
    let mut after = position + 1..tried.calls.len();
    after.find(|&at| tried.calls[at].acted_on(place)).map(|at| tried.touch(at, place))
}

/// The first touch after another page in the lock's place, of the set that it left in use.
pub fn with_lock(tried: Tried, is_lock: impl Fn(&Done) -> bool) -> Option<Touch> {
    let lock = tried.calls.iter().rposition(is_lock)?;
    first_after(tried, lock, tried.calls[lock].after.selected_place(tried.nexus))
}

/// The position after the latest power-on event.
pub fn since_power_on(tried: Tried) -> usize {
    let power_on = tried.calls.iter().rposition(|call| call.event.kind == kind::POWER_ON);
    power_on.map_or(0, |position| position + 1)
}
