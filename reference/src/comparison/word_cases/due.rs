//! Records that are well formed but for their words, met by a call that has another reason to be refused, or that comes in the
//! name of a nexus with something pending. 01: "Checks run in number order".

use super::wrong::Words;
use super::{Standing, WordCase, KINDS};
use crate::comparison::reached::KIND_ANSWERS;
use crate::record::Record;
use crate::sizes::NEXUSES;
use crate::stream::{kind, Command, Drive};

/// The kinds of call that name a nexus.
const NAMING: [u8; 6] =
    [kind::IN, kind::OUT, kind::WRITE, kind::NEXUS_RESERVATION_LOSS, kind::PREEMPT, kind::READ];

/// Every case: each answer that a kind of call can be refused with, but 1, and each nexus by its mark and flags.
pub fn every() -> Vec<WordCase> {
    let mut every = Vec::new();
    for (kind, answers) in KIND_ANSWERS {
        if KINDS.contains(&kind) && kind != kind::BATCH {
            let due = answers.iter().filter(|&&number| number > 1);
            every.extend(due.map(|&number| WordCase::OneBefore { kind, number }));
        }
    }
    for kind in NAMING {
        for nexus in 0..NEXUSES {
            every.extend(Standing::EVERY.map(|standing| WordCase::WrongInNameOf { kind, nexus, standing }));
        }
    }
    every
}

/// The cases of a call that is answered 1 over such a record, of which these are the right words.
pub fn cases(command: &Command, before: &Record, right: &Words) -> Vec<WordCase> {
    let kind = command.kind;
    let mut with_right_words = Drive::with(Record { selection_words: *right, ..before.clone() });
    let number = with_right_words.answer(command).number;
    let mut cases = Vec::new();
    if number > 1 {
        cases.push(WordCase::OneBefore { kind, number });
    }
    let nexus = usize::from(command.nexus);
    if NAMING.contains(&kind) && nexus < NEXUSES {
        let standing = Standing::of(&before.nexuses[nexus]);
        cases.push(WordCase::WrongInNameOf { kind, nexus, standing });
    }
    cases
}
