//! The sentences that tell why writes were refused, a line each as the proved program prints them: the write's position,
//! a space, and the sentence.

use crate::recording::{Recording, ANSWER_BYTES};
use crate::stream::kind;
use std::collections::BTreeMap;

/// The sentences by the positions of their writes.
#[derive(Default)]
pub struct Sentences(BTreeMap<usize, String>);

impl Sentences {
    /// Reads the lines for a recording with its answers, four bytes an event. Each refused write has one, in order, and
    /// nothing else has; what is wrong otherwise.
    pub fn read(text: &str, recording: &Recording, answers: &[u8]) -> Result<Sentences, String> {
        let mut refused = refused_writes(recording, answers).into_iter();
        let mut sentences = BTreeMap::new();
        for line in text.lines() {
            let (position, sentence) = parts(line).ok_or_else(|| {
                format!("the line `{line}` of the reasons is not a position and a sentence")
            })?;
            match refused.next() {
                Some(write) if write == position => sentences.insert(position, sentence.to_string()),
                Some(write) if write < position => return Err(missing(write)),
                _ => return Err(format!("a reason stands for event {position}, where none is due")),
            };
        }
        refused.next().map_or(Ok(Sentences(sentences)), |write| Err(missing(write)))
    }

    /// What is appended to the line of an event.
    pub fn beside(&self, position: usize) -> String {
        self.0.get(&position).map_or(String::new(), |sentence| format!(": {sentence}"))
    }
}

fn missing(position: usize) -> String {
    format!("no reason stands for event {position}, a write that is refused")
}

/// The positions of the writes that aren't answered 0.
fn refused_writes(recording: &Recording, answers: &[u8]) -> Vec<usize> {
    let answers = answers.chunks_exact(ANSWER_BYTES).map(|answer| answer[0]);
    let events = recording.events.iter().zip(answers).enumerate();
    let refused = events.filter(|(_, (event, number))| event.kind == kind::WRITE && *number != 0);
    refused.map(|(position, _)| position).collect()
}

/// The position, as it is printed, and the sentence of a line.
fn parts(line: &str) -> Option<(usize, &str)> {
    let (digits, sentence) = line.split_once(' ')?;
    let position: usize = digits.parse().ok()?;
    (position.to_string() == digits && !sentence.is_empty()).then_some((position, sentence))
}
