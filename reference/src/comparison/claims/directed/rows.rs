//! Each column in each row, by counts that are all different; nexuses above 15.

use super::{in_columns, in_one_column};
use crate::claim::Column;
use crate::comparison::claims::case::{put, Sink};
use crate::comparison::page_builder::SetPage;
use crate::comparison::recordings::case::Group;
use crate::comparison::session::{security_out, write};
use crate::sizes::NEXUSES;
use crate::stream::Command;

pub fn cases(sink: &mut Sink) {
    row_by_row(sink);
    column_by_column(sink);
    above_15(sink);
}

/// The counts of a nexus: no two of all nexuses and columns are equal.
fn counts(nexus: u8) -> [usize; 4] {
    let first = 4 * usize::from(nexus) + 1;
    [first, first + 1, first + 2, first + 3]
}

/// The nexuses there are.
fn nexuses() -> std::ops::Range<u8> {
    0..NEXUSES as u8
}

/// Every column in one row, and in all of them.
fn row_by_row(sink: &mut Sink) {
    for nexus in nexuses() {
        put(sink, Group::ClaimRows, format!("nexus {nexus}"), &in_columns(nexus, counts(nexus)), "250");
    }
    let every: Vec<Command> = nexuses().flat_map(|nexus| in_columns(nexus, counts(nexus))).collect();
    put(sink, Group::ClaimRows, "every nexus", &every, "250");
    let above = [every, (16..=255).map(|nexus| write(nexus, nexus % 2 == 0)).collect()].concat();
    put(sink, Group::ClaimRows, "every nexus there can be", &above, "250");
    let turned: Vec<Command> = nexuses().rev().flat_map(|nexus| in_columns(nexus, [1; 4])).collect();
    put(sink, Group::ClaimRows, "the last nexus first", &turned, "1");
}

/// One column in every row, most of them under a set that another nexus owns.
fn column_by_column(sink: &mut Sink) {
    for column in Column::EVERY {
        let writers = nexuses().map(|nexus| (nexus, usize::from(nexus) + 1));
        let commands = in_one_column(column, writers);
        put(sink, Group::ClaimRows, format!("{column:?}, every nexus"), &commands, "3");
        let commands = in_one_column(column, [(9, 1)].into_iter());
        put(sink, Group::ClaimRows, format!("{column:?}, one write"), &commands, "1000000");
    }
}

/// "those with a nexus above 15 have a seventeenth row, refused only": under a set that encrypts, beside the nexus that
/// has the same low bits.
fn above_15(sink: &mut Sink) {
    let all = || security_out(0, SetPage::all().bytes());
    for nexus in [16, 17, 25, 31, 32, 127, 128, 240, 254, 255] {
        let mut commands = vec![all()];
        commands.extend(vec![write(nexus, true); 3]);
        commands.extend(vec![write(nexus, false); 2]);
        put(sink, Group::ClaimAbove15, format!("nexus {nexus}"), &commands, "250");
        commands.push(write(nexus % 16, true));
        put(sink, Group::ClaimAbove15, format!("nexus {nexus} and {}", nexus % 16), &commands, "250");
    }
    let every = (16..=255).flat_map(|nexus| vec![write(nexus, true); usize::from(nexus % 16) + 1]);
    let commands: Vec<Command> = [all()].into_iter().chain(every).collect();
    put(sink, Group::ClaimAbove15, "every nexus above 15", &commands, "250");
}
