//! Counts of one to four digits, in a row and in the totals; the most writes that a recording has room for.

use super::{in_columns, in_one_column};
use crate::claim::Column;
use crate::comparison::claims::case::{put, put_file, Sink};
use crate::comparison::claims::reached::{most_writes, COUNTS};
use crate::comparison::recordings::builder::recording_of;
use crate::comparison::recordings::case::Group;
use crate::comparison::session::write;
use crate::recording::{LONGEST, MOST_EVENTS};
use crate::stream::Command;

pub fn cases(sink: &mut Sink) {
    for column in Column::EVERY {
        for (turn, count) in COUNTS.into_iter().enumerate() {
            in_a_row(column, turn as u8, count as usize, sink);
            in_the_total(column, turn as u8, count as usize, sink);
        }
    }
    most(sink);
}

/// So many writes of one nexus.
fn in_a_row(column: Column, turn: u8, count: usize, sink: &mut Sink) {
    let commands = in_one_column(column, [(2 * turn + 1, count)].into_iter());
    put(sink, Group::ClaimCounts, format!("{count} {column:?} in a row"), &commands, "1");
}

/// So many writes of two nexuses, of which neither has so many digits, or as many as can be.
fn in_the_total(column: Column, turn: u8, count: usize, sink: &mut Sink) {
    let part = match count % 10 {
        0 => 1,
        _ => count / 2,
    };
    let commands = in_one_column(column, [(turn, part), (15 - turn, count - part)].into_iter());
    put(sink, Group::ClaimCounts, format!("{count} {column:?} in the total"), &commands, "1");
}

/// The largest recordings of writes, by column: of one nexus, and of all in turn.
fn most(sink: &mut Sink) {
    for column in Column::EVERY {
        let count = most_writes(column) as usize;
        let one = match column {
            Column::Refused => vec![write(255, true); count],
            _ => in_one_column(column, [(15, count)].into_iter()),
        };
        put(sink, Group::ClaimMostWrites, format!("{column:?}, of one nexus"), &one, "1000000");
        let nexuses = if column == Column::Refused { 16..=255 } else { 0..=15 };
        let writers = nexuses.cycle().take(count).map(|nexus| (nexus, 1));
        let in_turn = match column {
            Column::Refused => writers.map(|(nexus, _)| write(nexus, true)).collect(),
            _ => in_one_column(column, writers),
        };
        put(sink, Group::ClaimMostWrites, format!("{column:?}, of nexuses in turn"), &in_turn, "999999");
    }
    let every: Vec<Command> = (0..=255).cycle().take(MOST_EVENTS).map(|nexus| write(nexus, true)).collect();
    put(sink, Group::ClaimMostWrites, "of every nexus there can be", &every, "1000000");
    let longest = (0..=15).flat_map(|nexus| in_columns(nexus, [100; 4])).chain(vec![write(16, true); 1000]);
    let longest: Vec<Command> = longest.collect();
    put(sink, Group::ClaimMostWrites, "the longest text", &longest, "1000000");
    let mut recording = recording_of(&every);
    recording.page_bytes = vec![0x33; LONGEST - recording.bytes().len()];
    put_file(sink, Group::ClaimMostWrites, "65,535 bytes", recording.bytes(), "1");
}
