//! Random recordings with many writes, sound and damaged in turn, at rates at random.

use super::case::Case;
use super::rates::random_rate;
use crate::comparison::numbers::Numbers;
use crate::comparison::recordings::random::RandomRecordings;
use crate::comparison::session::write;
use crate::sizes::NEXUSES;
use crate::stream::Command;

/// Makes random recordings with their rates from a seed.
pub struct RandomClaims {
    numbers: Numbers,
    recordings: RandomRecordings,
}

impl RandomClaims {
    /// Those of a seed.
    pub fn new(seed: u64) -> Self {
        let recordings = RandomRecordings::enriched(seed, with_writes);
        RandomClaims { numbers: Numbers::new(seed ^ u64::from(u32::MAX)), recordings }
    }

    /// The next recording with its rate.
    pub fn case(&mut self) -> Case {
        Case { recording: self.recordings.recording(), rate: random_rate(&mut self.numbers) }
    }
}

/// Writes after some of the commands, now and then many of them; mostly of nexuses that the other commands are of.
fn with_writes(commands: Vec<Command>, numbers: &mut Numbers) -> Vec<Command> {
    let mut more = Vec::with_capacity(2 * commands.len());
    // a long session has no room for them
    let mut many = commands.len() <= 50 && numbers.percent(10);
    for command in commands {
        more.push(command);
        let count = match numbers.below(10) {
            0 if std::mem::take(&mut many) => numbers.pick(&[9, 10, 99, 100, 999, 1000]),
            0..=3 => 0,
            4..=8 => 1 + numbers.below(3),
            _ => numbers.below(12),
        };
        let nexus = match numbers.below(40) {
            0 => numbers.byte(),
            1 => NEXUSES as u8,
            2..=9 => numbers.below(NEXUSES) as u8,
            _ => numbers.below(6) as u8,
        };
        more.extend(vec![write(nexus, numbers.percent(75)); count]);
    }
    more
}
