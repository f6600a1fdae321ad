//! Every rate, and long ones, over a session of writes, over one without, over no events and over a wrong file.

use super::in_columns;
use crate::comparison::claims::case::{put_file, Sink};
use crate::comparison::claims::rates::{RateKind, LONG_RATE};
use crate::comparison::recordings::builder::{every_kind, no_events, recording_of, requests, with_header};
use crate::comparison::recordings::case::Group;

pub fn cases(sink: &mut Sink) {
    let wrong = with_header(&every_kind(), |header| header.total += 1);
    let files = [
        ("all columns", recording_of(&in_columns(5, [7, 5, 3, 2])).bytes()),
        ("no events", no_events().bytes()),
        ("the request's file", requests().bytes()),
        ("a wrong file", wrong),
    ];
    for (name, file) in files {
        for rate in RateKind::EVERY.into_iter().flat_map(RateKind::rates) {
            put_file(sink, Group::ClaimRates, name, file.clone(), rate);
        }
        for rate in long_rates() {
            put_file(sink, Group::ClaimRates, name, file.clone(), &rate);
        }
    }
}

/// A rate that is taken, two above the limit, and two that are no number: what counts is first or last.
fn long_rates() -> [String; 5] {
    let [zeros, ones] = ["0", "1"].map(|digit| digit.repeat(LONG_RATE));
    [format!("{zeros}250"), format!("1{zeros}"), format!("{ones}1"), format!("x{ones}"), format!("{zeros}x")]
}
