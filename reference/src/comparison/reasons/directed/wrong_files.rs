//! A session of writes whose file breaks one rule, for each rule: 22 whatever is asked, and before 19 and 2.

use super::limits::{locked, near_limits};
use crate::comparison::reasons::case::{put_file, Sink, Way};
use crate::comparison::recordings::builder::{breaking, recording_of};
use crate::comparison::recordings::case::Group;
use crate::recording::FileRule;

pub fn cases(sink: &mut Sink) {
    let sound = recording_of(&locked());
    for rule in FileRule::EVERY {
        // every number with the first rule, some of them with the others
        let step = if rule == FileRule::EVERY[0] { 1 } else { 7 };
        let ways = Way::OF_ALL.into_iter().chain(near_limits().into_iter().step_by(step)).collect();
        put_file(sink, Group::ReasonWrongFiles, format!("{rule:?}"), breaking(rule, &sound), ways);
    }
}
