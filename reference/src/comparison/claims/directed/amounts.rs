//! Amounts of one to ten digits, around 2^16, 2^31 and 2^32; what isn't encrypted has none.

use super::{in_columns, in_one_column};
use crate::claim::Column;
use crate::comparison::claims::case::{put, Sink};
use crate::comparison::recordings::case::Group;
use crate::comparison::session::write;

/// Encrypted writes and a rate. 4,369 times 983,055 is 2^32 - 1, 4,096 times 524,288 is 2^31; 2^32 itself is no amount.
const AMOUNTS: [(usize, u32); 26] = [
    (1, 1),
    (9, 1),
    (10, 1),
    (3, 33),
    (11, 9),
    (4, 25),
    (4, 250),
    (100, 100),
    (1, 65_535),
    (256, 256),
    (1, 99_999),
    (2, 500_000),
    (1, 1_000_000),
    (10, 999_999),
    (16, 625_000),
    (99, 999_999),
    (100, 1_000_000),
    (1000, 1_000_000),
    (2147, 1_000_000),
    (4096, 524_288),
    (2148, 1_000_000),
    (4294, 1_000_000),
    (4369, 983_055),
    (4295, 1_000_000),
    (5000, 858_994),
    (8000, 1_000_000),
];

pub fn cases(sink: &mut Sink) {
    for (count, rate) in AMOUNTS {
        let writers = (0..=15).cycle().take(count).map(|nexus| (nexus, 1));
        let mut commands = in_one_column(Column::Encrypted, writers);
        commands.extend([write(7, false), write(16, true)]);
        let name = format!("{count} encrypted at {rate}");
        put(sink, Group::ClaimAmounts, name, &commands, &rate.to_string());
    }
    for column in [Column::External, Column::Clear, Column::Refused] {
        let commands = in_one_column(column, [(4, 7)].into_iter());
        put(sink, Group::ClaimAmounts, format!("7 {column:?} at 1000000"), &commands, "1000000");
    }
    put(sink, Group::ClaimAmounts, "all columns at 0", &in_columns(4, [7, 6, 5, 4]), "0");
}
