//! Claimers with a fault.

use crate::claimer::{adding, cells, checked, moving, placing, refused_23, right, telling, usage, with_rate};
use crate::written::{printed, refused, refused_22};
use reference::claim::second_account::cell;
use reference::claim::{count, row_of, Cell, Claim, Column, Counts, Rate};
use reference::comparison::claims::Given;
use reference::recording::{broken_rules, event_rules, parts, FileRule, Header, Moment, Recording};
use reference::sizes::NEXUSES;
use reference::stream::kind;

/// A name, the claimer of a file at a rate, and the longest short recording it may leave; `LONG` where a short one doesn't
/// show it.
pub type Fault = (&'static str, fn(&[u8], &str) -> Given, usize);

/// Recordings in which such a fault shows aren't made short, as they have to be long.
pub const LONG: usize = usize::MAX;

pub const FAULTS: [Fault; 62] = [
    // the column
    ("external-as-encrypted", |file, rate| from_column(file, rate, Column::External, Column::Encrypted), 60),
    ("clear-as-external", |file, rate| from_column(file, rate, Column::Clear, Column::External), 16),
    ("clear-as-refused", |file, rate| from_column(file, rate, Column::Clear, Column::Refused), 16),
    ("refused-as-clear", |file, rate| from_column(file, rate, Column::Refused, Column::Clear), 80),
    ("refused-by-its-mode", |file, rate| moving(file, rate, refused_by_its_mode), 80),
    ("unsupported-encrypt-as-encrypted", |file, rate| answer_as(file, rate, 12, Column::Encrypted), 80),
    ("changed-key-instance-as-encrypted", |file, rate| answer_as(file, rate, 11, Column::Encrypted), 120),
    ("pending-of-another-nexus-as-clear", |file, rate| answer_as(file, rate, 3, Column::Clear), 100),
    ("pending-of-a-vendor-event-as-clear", |file, rate| answer_as(file, rate, 4, Column::Clear), 100),
    (
        "unsupported-external-as-refused",
        |file, rate| unsupported_as_refused(file, rate, Column::External),
        60,
    ),
    ("unsupported-clear-as-refused", |file, rate| unsupported_as_refused(file, rate, Column::Clear), 16),
    ("above-15-by-the-set-in-place-0", |file, rate| moving(file, rate, above_15_by_place_0), 16),
    // the row
    ("above-15-in-row-15", |file, rate| moving(file, rate, |_, (row, it)| (row.min(15), it)), 16),
    ("above-15-by-its-low-bits", |file, rate| moving(file, rate, above_15_by_its_low_bits), 16),
    ("row-of-the-sets-owner", |file, rate| moving(file, rate, row_of_the_sets_owner), 80),
    ("row-of-the-place", |file, rate| moving(file, rate, row_of_the_place), 80),
    (
        "nexus-9-in-row-10",
        |file, rate| moving(file, rate, |_, (row, it)| (row + usize::from(row == 9), it)),
        16,
    ),
    ("nexus-9-external-as-clear", |file, rate| moving(file, rate, nexus_9_external_as_clear), 60),
    (
        "rows-from-15-down",
        |file, rate| moving(file, rate, |_, (row, it)| (if row < 16 { 15 - row } else { row }, it)),
        16,
    ),
    // which events
    ("above-15-not-counted", |file, rate| not_counting(file, rate, |moment| moment.event.nexus > 15), 16),
    (
        "pending-not-counted",
        |file, rate| not_counting(file, rate, |it| matches!(it.reply.number, 3 | 4)),
        100,
    ),
    ("unsupported-not-counted", |file, rate| not_counting(file, rate, |it| it.event.argument == 0), 16),
    ("pending-counted-twice", pending_counted_twice, 100),
    ("before-power-on-forgotten", |file, rate| by_power_on(file, rate, |all, at| all.split_off(at)), 32),
    ("after-power-on-not-counted", |file, rate| by_power_on(file, rate, |all, at| all[..at].to_vec()), 32),
    ("refused-calls-of-any-kind", |file, rate| counting_also(file, rate, |it| it.reply.number != 0), 16),
    ("reads-counted", |file, rate| counting_also(file, rate, |it| it.event.kind == kind::READ), 16),
    ("last-event-not-counted", last_event_not_counted, 16),
    ("event-8190-not-counted", event_8190_not_counted, LONG),
    // the sums
    (
        "total-of-refused-left-out",
        |file, rate| adding(file, rate, |claim, _| claim.totals[Column::Refused] = 0),
        80,
    ),
    ("total-without-row-16", |file, rate| adding(file, rate, |claim, _| without_row(claim, 16)), 16),
    ("total-without-row-0", |file, rate| adding(file, rate, |claim, _| without_row(claim, 0)), 16),
    (
        "amount-in-32-bits",
        |file, rate| adding(file, rate, |it, _| it.amount = u64::from(it.amount as u32)),
        LONG,
    ),
    (
        "amount-of-all-writes",
        |file, rate| adding(file, rate, |it, pence| it.amount = it.totals.writes() * pence),
        16,
    ),
    (
        "amount-of-external-too",
        |file, rate| adding(file, rate, |it, pence| it.amount += it.totals[Column::External] * pence),
        60,
    ),
    (
        "amount-of-refused-too",
        |file, rate| adding(file, rate, |it, pence| it.amount += it.totals[Column::Refused] * pence),
        80,
    ),
    ("amount-in-pounds", |file, rate| adding(file, rate, |claim, _| claim.amount /= 100), 80),
    ("amount-in-a-float", |file, rate| adding(file, rate, |it, _| it.amount = it.amount as f32 as u64), LONG),
    ("counts-in-a-byte", |file, rate| adding(file, rate, counts_in_a_byte), 8192),
    ("counts-to-999", |file, rate| adding(file, rate, counts_to_999), LONG),
    // the text
    ("rows-in-another-order", |file, rate| lines_as(file, rate, |lines| lines[..17].reverse()), 8),
    ("row-16-first", |file, rate| lines_as(file, rate, |lines| lines[..17].rotate_right(1)), 8),
    ("total-first", |file, rate| lines_as(file, rate, |lines| lines.rotate_right(1)), 8),
    (
        "rows-without-writes-left-out",
        |file, rate| lines_as(file, rate, |it| it.retain(|line| !line.ends_with(" 0 0 0 0"))),
        8,
    ),
    ("no-final-newline", |file, rate| telling(file, rate, |claim, _| claim.text().trim_end().to_string()), 8),
    ("a-blank-line-more", |file, rate| telling(file, rate, |claim, _| claim.text() + "\n"), 8),
    (
        "returns-before-newlines",
        |file, rate| telling(file, rate, |claim, _| claim.text().replace('\n', "\r\n")),
        8,
    ),
    ("thousands-set-off", |file, rate| telling(file, rate, thousands_set_off), 120),
    ("columns-in-another-order", |file, rate| telling(file, rate, columns_in_another_order), 16),
    // the refusals and the rate
    (
        "23-before-22",
        |file, rate| {
            if Rate::read(rate) == Some(Rate::AboveLimit) {
                refused_23()
            } else {
                right(file, rate)
            }
        },
        0,
    ),
    (
        "22-before-the-usage",
        |file, rate| if Recording::read(file).is_none() { refused_22() } else { right(file, rate) },
        0,
    ),
    (
        "refusal-with-22-always",
        |file, rate| {
            if right(file, rate).errors.starts_with(b"23") {
                refused_22()
            } else {
                right(file, rate)
            }
        },
        8,
    ),
    ("rows-printed-with-23", rows_printed_with_23, 8),
    ("good-part-claimed", good_part_claimed, 16),
    ("support-flag-2-taken", support_flag_2_taken, 16),
    (
        "rate-1000000-refused",
        |file, rate| with_rate(file, rate, |it| if it == "1000000" { "1000001".into() } else { it.into() }),
        8,
    ),
    (
        "rate-1000001-taken",
        |file, rate| with_rate(file, rate, |it| if it == "1000001" { "1000000".into() } else { it.into() }),
        8,
    ),
    ("rate-in-32-bits", |file, rate| with_rate(file, rate, |rate| wrapped(rate, 32)), 8),
    ("rate-in-64-bits", |file, rate| with_rate(file, rate, |rate| wrapped(rate, 64)), 8),
    (
        "long-rate-is-no-number",
        |file, rate| if rate.parse::<u64>().is_err() { usage() } else { right(file, rate) },
        8,
    ),
    (
        "sign-taken",
        |file, rate| with_rate(file, rate, |rate| rate.strip_prefix('+').unwrap_or(rate).to_string()),
        8,
    ),
    (
        "zeros-before-a-rate-refused",
        |file, rate| if rate.len() > 1 && rate.starts_with('0') { usage() } else { right(file, rate) },
        8,
    ),
];

/// One column's writes are counted in another.
fn from_column(file: &[u8], rate: &str, from: Column, to: Column) -> Given {
    moving(file, rate, |_, (row, column)| (row, if column == from { to } else { column }))
}

/// A refused write is counted in the column of its nexus's mode.
fn refused_by_its_mode(moment: &Moment, (row, column): Cell) -> Cell {
    if column != Column::Refused || row == NEXUSES {
        return (row, column);
    }
    let by_mode = [Column::Clear, Column::External, Column::Encrypted];
    (row, by_mode[usize::from(moment.before.selected_set(row).encryption)])
}

/// Writes with an answer are counted in a column.
fn answer_as(file: &[u8], rate: &str, number: u8, to: Column) -> Given {
    moving(file, rate, |moment, (row, column)| (row, if moment.reply.number == number { to } else { column }))
}

/// A write without support is refused in a mode that doesn't ask for it.
fn unsupported_as_refused(file: &[u8], rate: &str, of: Column) -> Given {
    moving(file, rate, |moment, (row, column)| {
        (row, if column == of && moment.event.argument == 0 { Column::Refused } else { column })
    })
}

/// Nexuses above 15 are decided as PUBLIC ones.
fn above_15_by_place_0(moment: &Moment, (row, column): Cell) -> Cell {
    let by_mode = [Column::Clear, Column::External, Column::Encrypted];
    (row, if row == NEXUSES { by_mode[usize::from(moment.before.places[0].encryption)] } else { column })
}

/// Nexus 16 is counted in row 0, 17 in row 1.
fn above_15_by_its_low_bits(moment: &Moment, (_, column): Cell) -> Cell {
    (usize::from(moment.event.nexus) % NEXUSES, column)
}

/// The row is that of the nexus that sent the set in use.
fn row_of_the_sets_owner(moment: &Moment, (row, column): Cell) -> Cell {
    if row == NEXUSES || !moment.before.selected_set(row).is_used() {
        return (row, column);
    }
    (usize::from(moment.before.selected_set(row).owner), column)
}

/// Encrypted writes are counted in the row of their place.
fn row_of_the_place(moment: &Moment, (row, column): Cell) -> Cell {
    (if column == Column::Encrypted { moment.before.selected_place(row) } else { row }, column)
}

/// Only nexus 9 is wrong, and only in one column.
fn nexus_9_external_as_clear(_: &Moment, cell: Cell) -> Cell {
    if cell == (9, Column::External) {
        (9, Column::Clear)
    } else {
        cell
    }
}

/// Some writes aren't counted.
fn not_counting(file: &[u8], rate: &str, left_out: impl Fn(&Moment) -> bool) -> Given {
    placing(file, rate, |moment| cell(moment).filter(|_| !left_out(moment)).into_iter().collect())
}

/// The write that finds a flag is counted as refused, and the flag too.
fn pending_counted_twice(file: &[u8], rate: &str) -> Given {
    placing(file, rate, |moment| {
        let times = if matches!(moment.reply.number, 3 | 4) { 2 } else { 1 };
        cell(moment).into_iter().flat_map(|cell| vec![cell; times]).collect()
    })
}

/// What is kept of the cells, of which so many come before the first power-on event.
fn by_power_on(file: &[u8], rate: &str, kept: fn(&mut Vec<Cell>, usize) -> Vec<Cell>) -> Given {
    let (recording, pence) = match checked(file, rate) {
        Ok(checked) => checked,
        Err(given) => return given,
    };
    let mut power_on = None;
    let mut before = 0;
    let mut all = cells(&recording, |moment| {
        if moment.event.kind == kind::POWER_ON {
            power_on = power_on.or(Some(before));
        }
        before += usize::from(cell(moment).is_some());
        cell(moment).into_iter().collect()
    });
    let cells = match power_on {
        Some(at) => kept(&mut all, at),
        None => all,
    };
    printed(Claim::of(count(cells), pence).text())
}

/// Other events are counted as refused writes.
fn counting_also(file: &[u8], rate: &str, counted: impl Fn(&Moment) -> bool) -> Given {
    placing(file, rate, |moment| {
        let refused = (row_of(moment.event.nexus), Column::Refused);
        cell(moment).or(counted(moment).then_some(refused)).into_iter().collect()
    })
}

/// The claim without the last event.
fn last_event_not_counted(file: &[u8], rate: &str) -> Given {
    match checked(file, rate) {
        Ok((mut recording, _)) => {
            recording.events.pop();
            right(&recording.bytes(), rate)
        }
        Err(given) => given,
    }
}

/// The claim without the last event of the longest recordings.
fn event_8190_not_counted(file: &[u8], rate: &str) -> Given {
    match Recording::read(file) {
        Some(recording) if recording.events.len() == 8190 => last_event_not_counted(file, rate),
        _ => right(file, rate),
    }
}

/// The totals of the other rows.
fn without_row(claim: &mut Claim, row: usize) {
    for column in Column::EVERY {
        claim.totals[column] -= claim.rows[row][column];
    }
}

/// Each count of the rows and totals becomes another.
fn each_count(claim: &mut Claim, count: fn(u64) -> u64) {
    claim.rows.iter_mut().chain([&mut claim.totals]).for_each(|counts| *counts = Counts(counts.0.map(count)));
}

/// Counts start over at 256.
fn counts_in_a_byte(claim: &mut Claim, pence: u64) {
    each_count(claim, |count| count % 256);
    claim.amount = claim.totals[Column::Encrypted] * pence;
}

/// Counts have three digits at most.
fn counts_to_999(claim: &mut Claim, _: u64) {
    each_count(claim, |count| count.min(999));
}

/// The lines in another order, or some of them.
fn lines_as(file: &[u8], rate: &str, change: impl Fn(&mut Vec<String>)) -> Given {
    telling(file, rate, |claim, _| {
        let mut lines: Vec<String> = claim.text().lines().map(str::to_string).collect();
        change(&mut lines);
        lines.join("\n") + "\n"
    })
}

/// 1,000 for 1000.
fn thousands_set_off(claim: Claim, _: u64) -> String {
    let word = |word: &str| {
        let split = word.len().saturating_sub(3);
        match word.parse::<u64>() {
            Ok(number) if number > 999 => format!("{},{}", &word[..split], &word[split..]),
            _ => word.to_string(),
        }
    };
    let line = |line: &str| line.split(' ').map(word).collect::<Vec<_>>().join(" ") + "\n";
    claim.text().lines().map(line).collect()
}

/// Clear before external.
fn columns_in_another_order(mut claim: Claim, _: u64) -> String {
    claim.rows.iter_mut().chain([&mut claim.totals]).for_each(|counts| {
        *counts = Counts([
            counts[Column::Encrypted],
            counts[Column::Clear],
            counts[Column::External],
            counts[Column::Refused],
        ])
    });
    claim.text()
}

/// A rate above the limit is refused after the rows are printed.
fn rows_printed_with_23(file: &[u8], rate: &str) -> Given {
    let given = right(file, rate);
    if !given.errors.starts_with(b"23") {
        return given;
    }
    Given { output: right(file, "0").output, ..given }
}

/// A wrong event ends the session in place of refusing the file.
fn good_part_claimed(file: &[u8], rate: &str) -> Given {
    let header_is_right = !broken_rules(file).iter().any(|rule| *rule < FileRule::Kind);
    match Header::read(file).and_then(|header| parts(&header, file)) {
        Some((events, page_bytes)) if header_is_right => {
            let good = |event: &_| event_rules(event, page_bytes.len()).is_empty();
            let events = events.into_iter().take_while(good).collect();
            right(&Recording { events, page_bytes: page_bytes.to_vec() }.bytes(), rate)
        }
        _ => right(file, rate),
    }
}

/// A support flag of 2 is a yes.
fn support_flag_2_taken(file: &[u8], rate: &str) -> Given {
    if broken_rules(file) != [FileRule::SupportFlag] {
        return right(file, rate);
    }
    let Some((mut events, page_bytes)) = Header::read(file).and_then(|header| parts(&header, file)) else {
        return refused("22");
    };
    for event in events.iter_mut().filter(|event| event.kind == kind::WRITE && event.argument == 2) {
        event.argument = 1;
    }
    right(&Recording { events, page_bytes: page_bytes.to_vec() }.bytes(), rate)
}

/// The low part of a number.
fn wrapped(rate: &str, bits: u32) -> String {
    match rate.parse::<u128>() {
        Ok(number) if Rate::read(rate).is_some() => (number & ((1 << bits) - 1)).to_string(),
        _ => rate.to_string(),
    }
}
