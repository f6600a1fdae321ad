//! Runs of sound events up to each position of a wrong one, with anything after it.

use super::{demount, wrong};
use crate::comparison::recordings::builder::{change_header, file_of, supported_write};
use crate::comparison::recordings::case::{put, Group, Sink};
use crate::recording::Event;

/// Counts that a byte holds, and those that it doesn't.
const MANY: [usize; 3] = [255, 256, 257];

pub fn recordings(sink: &mut Sink) {
    for all in 0..=6 {
        for kept in 0..=all {
            by_rest(all, kept, sink);
        }
    }
    for kept in 7..=40 {
        put(sink, Group::SalvageRuns, format!("{kept} and a wrong one"), file_with(kept, &[wrong()]));
    }
    for kept in MANY {
        for dropped in [0].into_iter().chain(MANY) {
            put_run(sink, "sound after", kept, &rest_of(dropped, |_| demount()));
        }
        put_run(sink, "sound after", 0, &rest_of(kept, |_| demount()));
        put_run(sink, "sound after", 1, &rest_of(kept, |_| demount()));
    }
}

/// So many dropped events, the first of them wrong.
fn rest_of(dropped: usize, rest: impl Fn(usize) -> Event) -> Vec<Event> {
    (0..dropped).map(|at| if at == 0 { wrong() } else { rest(at) }).collect()
}

/// Sound events, wrong ones and both in turn after the one that ends the run.
fn by_rest(all: usize, kept: usize, sink: &mut Sink) {
    let dropped = all - kept;
    put_run(sink, "sound after", kept, &rest_of(dropped, |_| supported_write(3)));
    if dropped > 1 {
        put_run(sink, "wrong after", kept, &rest_of(dropped, |_| wrong()));
    }
    if dropped > 2 {
        put_run(sink, "both after", kept, &rest_of(dropped, |at| [wrong(), demount()][at % 2]));
    }
}

/// A file of so many sound events before the rest.
fn file_with(kept: usize, rest: &[Event]) -> Vec<u8> {
    file_of([&vec![demount(); kept][..], rest].concat(), vec![1, 2, 3, 4, 5])
}

/// Hands a run over, with the stored count of all events, and with that of the kept ones.
fn put_run(sink: &mut Sink, name: &str, kept: usize, rest: &[Event]) {
    let file = file_with(kept, rest);
    let name = format!("{kept} kept, {} dropped, {name}", rest.len());
    let mut of_kept = file.clone();
    change_header(&mut of_kept, |header| header.event_count = kept as u16);
    put(sink, Group::SalvageRuns, name.clone(), file);
    put(sink, Group::SalvageRuns, name + ", the kept counted", of_kept);
}
