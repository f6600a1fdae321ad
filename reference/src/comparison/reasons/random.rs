//! Random recordings of few events, sound and damaged in turn; now and then with a number of events or a nexus near a
//! limit.

use super::case::{Case, Events, Way, MOST_EVENTS};
use super::directed::limits::{EVENTS, NEXUSES};
use crate::codes::scope;
use crate::comparison::numbers::Numbers;
use crate::comparison::page_builder::SetPage;
use crate::comparison::recordings::random::RandomRecordings;
use crate::comparison::session::{event, event_of, security_out, write};
use crate::stream::{kind, Command};

/// Makes random recordings, with what is asked about them, from a seed.
pub struct RandomReasons {
    numbers: Numbers,
    recordings: RandomRecordings,
}

impl RandomReasons {
    /// Those of a seed.
    pub fn new(seed: u64) -> Self {
        let recordings = RandomRecordings::enriched(seed, short_with_locks);
        RandomReasons { numbers: Numbers::new(seed ^ u64::from(u32::MAX)), recordings }
    }

    /// The next recording.
    pub fn case(&mut self) -> Case {
        let recording = self.recordings.recording();
        let mut ways = Way::OF_ALL.to_vec();
        if self.numbers.percent(20) {
            ways.push(self.question());
        }
        Case { recording, ways }
    }

    /// A write to be tried, at the limits or near them.
    fn question(&mut self) -> Way {
        let numbers = &mut self.numbers;
        let events = match numbers.below(3) {
            0 => Events::PastCount(numbers.below(3) as u64),
            _ => Events::Digits(numbers.pick(&EVENTS)),
        };
        Way::One { events, nexus: numbers.pick(&NEXUSES), support: numbers.pick(&["0", "1"]) }
    }
}

/// Kinds of event without a nexus that release sets.
const RELEASING: [u8; 3] = [kind::DEMOUNT, kind::DEVICE_RESERVATION_LOSS, kind::MICROCODE];

/// Few commands, with more locks, events and writes among them than a session has by itself, mostly of the same nexuses.
fn short_with_locks(mut commands: Vec<Command>, numbers: &mut Numbers) -> Vec<Command> {
    commands.truncate(MOST_EVENTS / 2);
    let mut more = Vec::with_capacity(MOST_EVENTS);
    for command in commands {
        more.push(command);
        let nexus = numbers.below(6) as u8;
        let page = |page: SetPage| security_out(nexus, page.bytes());
        more.extend(match numbers.below(10) {
            0 => Some(page(SetPage::public(true))),
            1 => Some(page(SetPage::releasable(scope::LOCAL, numbers.percent(80)))),
            2 => Some(page(SetPage::releasable(scope::ALL, numbers.percent(80)))),
            3 => Some(event(numbers.pick(&RELEASING))),
            4 => Some(event_of(numbers.pick(&[kind::NEXUS_RESERVATION_LOSS, kind::PREEMPT]), nexus)),
            5..=7 => Some(write(nexus, numbers.percent(60))),
            _ => None,
        });
    }
    more
}
