//! The list of writes that aren't claimed, with the reasons.

use super::super::figures::writes;
use super::super::{Fate, Run};
use super::text::escaped;
use crate::answer::{Refused, NO_SENSE};
use crate::answer_words::{sense_words, when};
use crate::calls::{Written, WrittenAs};
use crate::codes::encryption;
use crate::names::ENCRYPTION_MODES;
use std::ops::RangeInclusive;

/// From so many ranges on, a list of events has a box of its own in which it can be scrolled.
const MANY: usize = 20;

/// The list, or that there is nothing in it.
pub fn part(runs: &[Run]) -> String {
    let count: usize = runs.iter().map(|run| run.positions.len()).sum();
    let list = if runs.is_empty() { "<p>There is none.</p>\n".to_string() } else { table(runs, count) };
    format!("<section>\n<h2>Writes that are not claimed</h2>\n{list}</section>\n")
}

fn table(runs: &[Run], count: usize) -> String {
    let rows: Vec<String> = runs.iter().map(row).collect();
    format!(
        "<table class=\"unclaimed\">\n\
         <caption>{}. Events are numbered from 0. A row holds unclaimed writes of one host that follow one another for \
         the same reason.</caption>\n\
         <thead>\n<tr><th scope=\"col\">events</th><th scope=\"col\">host</th>\
         <th scope=\"col\">what became of it, and why</th></tr>\n</thead>\n\
         <tbody>\n{}</tbody>\n\
         </table>\n",
        writes(count as u64),
        rows.concat(),
    )
}

fn row(run: &Run) -> String {
    let name = run.fate.column().name();
    let Reason { words, notes } = Reason::of(run.fate);
    format!(
        "<tr><th scope=\"row\">{}</th><td>{}</td>\
         <td><p><span class=\"swatch {name}\"></span> <b>{name}</b>: {}</p>{}</td></tr>\n",
        events(run),
        run.nexus,
        escaped(&words),
        notes.iter().map(|note| format!("\n<p>{}</p>", escaped(note))).collect::<String>(),
    )
}

/// The events' numbers, with their count where it is more than one.
fn events(run: &Run) -> String {
    let ranges = run.ranges();
    let numbers = ranges.iter().map(range_text).collect::<Vec<_>>().join(", ");
    let scrolls = " class=\"many\" tabindex=\"0\" role=\"group\" aria-label=\"events\"";
    let attributes = if ranges.len() >= MANY { scrolls } else { "" };
    let count = match run.positions.len() {
        1 => String::new(),
        count => format!(" <small>({})</small>", writes(count as u64)),
    };
    format!("<div{attributes}>{numbers}</div>{count}")
}

fn range_text(range: &RangeInclusive<usize>) -> String {
    let (first, last) = (range.start(), range.end());
    if first == last {
        first.to_string()
    } else {
        format!("{first}–{last}")
    }
}

/// Why a write isn't claimed: what the drive answered and, where it is known by the answer alone, what happened.
struct Reason {
    words: String,
    notes: Vec<String>,
}

impl Reason {
    fn of(fate: Fate) -> Reason {
        let set = |place: usize, mode: u8| {
            let mode = ENCRYPTION_MODES[usize::from(mode)];
            format!("the set in use, in place {place}, has encryption mode {mode}")
        };
        match fate {
            Fate::Refused { number, sense } => Reason {
                words: format!("answer {number}, {}", when(number)),
                notes: [what_happened(number), (sense != NO_SENSE).then(|| sense_words(sense))]
                    .into_iter()
                    .flatten()
                    .collect(),
            },
            Fate::Written(Written { as_what: WrittenAs::External, place, .. }) => Reason {
                words: set(place, encryption::EXTERNAL),
                notes: vec!["The drive didn't encrypt it.".to_string()],
            },
            // an empty place has index 0, a used one 1
            Fate::Written(Written { place: 0, index: 0, .. }) => Reason {
                words: set(0, encryption::DISABLE),
                notes: vec![
                    "Place 0 is empty, which is the default set: nobody set a key for this host.".to_string()
                ],
            },
            Fate::Written(Written { place, .. }) => {
                Reason { words: set(place, encryption::DISABLE), notes: Vec::new() }
            }
        }
    }
}

/// What is the case wherever a write is given an answer, if more than its words say.
fn what_happened(number: u8) -> Option<String> {
    let words = "The set in use has encryption mode ENCRYPT, and the volume doesn't support its algorithm.";
    (number == Refused::ParametersNotUsable.number()).then(|| words.to_string())
}
