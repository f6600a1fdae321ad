//! A session of writes whose file breaks one rule, for each rule: no part of it is claimed, at any rate.

use super::in_columns;
use crate::comparison::claims::case::{put_file, Sink};
use crate::comparison::claims::rates::RateKind;
use crate::comparison::recordings::builder::{breaking, recording_of};
use crate::comparison::recordings::case::Group;
use crate::recording::FileRule;

pub fn cases(sink: &mut Sink) {
    let sound = recording_of(&in_columns(3, [4, 3, 2, 1]));
    for rule in FileRule::EVERY {
        let file = breaking(rule, &sound);
        for kind in RateKind::EVERY {
            for rate in &kind.rates()[..3] {
                put_file(sink, Group::ClaimWrongFiles, format!("{rule:?}"), file.clone(), rate);
            }
        }
    }
}
