//! Pages that end at the end of the page bytes, one byte before it and one past it, whatever else the file's numbers say.

use super::{demount, wrong};
use crate::comparison::recordings::builder::{change_header, file_of, out};
use crate::comparison::recordings::case::{put, Group, Sink};
use crate::recording::{Event, Header, LONGEST};

/// Counts of page bytes: none, one, more than an event's, and more than a byte can tell.
const COUNTS: [u16; 4] = [0, 1, 9, 300];

pub fn recordings(sink: &mut Sink) {
    for count in COUNTS {
        bounds(count, sink);
        within_something_else(count, sink);
        totals_that_lie(count, sink);
    }
    other_codes_and_nexuses(sink);
    the_longest_page(sink);
}

/// An OUT event between two sound ones.
fn between(out: Event, count: u16) -> Vec<u8> {
    file_of(vec![demount(), out, demount()], page_bytes(count))
}

/// So many page bytes, each another than the one before.
fn page_bytes(count: u16) -> Vec<u8> {
    (0..count).map(|number| number as u8).collect()
}

/// Pages that end within the page bytes, at their end and past it, of some bytes and of none.
fn bounds(count: u16, sink: &mut Sink) {
    let mut ends = vec![count.saturating_sub(1), count, count + 1, count + 2, count + 8, 0x8000, u16::MAX];
    ends.dedup();
    for end in ends {
        let mut lengths = vec![0, 1.min(end), end.min(count), end];
        lengths.sort();
        lengths.dedup();
        for length in lengths {
            let file = between(out(3, end - length, length), count);
            put(sink, Group::SalvagePages, format!("{length} bytes at {} of {count}", end - length), file);
        }
    }
    // ends above 65,535, which numbers of 16 bits don't hold
    for (offset, length) in
        [(u16::MAX, 1), (1, u16::MAX), (0x8000, 0x8000), (u16::MAX, u16::MAX), (u16::MAX - 7, 8 + count)]
    {
        let file = between(out(3, offset, length), count);
        put(sink, Group::SalvagePages, format!("{length} bytes at {offset} of {count}"), file);
    }
}

/// Pages past the page bytes that end within the file, or that end where the dropped events would be page bytes too.
fn within_something_else(count: u16, sink: &mut Sink) {
    for past in [8, 16, 24, 32, 40] {
        for (name, offset, length) in [("long", 0, count + past), ("far", past, count)] {
            let file = between(out(3, offset, length), count);
            put(sink, Group::SalvagePages, format!("{past} past the end of {count}, {name}"), file);
        }
    }
}

/// A page within the page bytes by the stored total alone, and one past them by it alone.
fn totals_that_lie(count: u16, sink: &mut Sink) {
    for off in [1, 8, 9] {
        let mut told_more = between(out(3, 0, count + off), count);
        change_header(&mut told_more, |header| header.total += off);
        put(sink, Group::SalvagePages, format!("{off} past the end of {count}, but told"), told_more);
        let mut told_less = between(out(3, 0, count), count);
        change_header(&mut told_less, |header| header.total -= off);
        put(sink, Group::SalvagePages, format!("to the end of {count}, {off} not told"), told_less);
    }
}

/// The rule is asked whatever the calls would say of the event's nexus and page code.
fn other_codes_and_nexuses(sink: &mut Sink) {
    for (nexus, argument) in [(16, 0x0010), (255, 0xFFFF), (3, 0x0011), (3, 0)] {
        for length in [52, 53] {
            let event = Event { nexus, argument, ..out(3, 0, length) };
            let name = format!("nexus {nexus}, page code {argument}, {length} bytes of 52");
            put(sink, Group::SalvagePages, name, between(event, 52));
        }
    }
}

/// A page of all the bytes that there is room for, whole and with its last byte lost; then as many that no page needs.
fn the_longest_page(sink: &mut Sink) {
    for events in [1, 2] {
        let count = LONGEST - usize::from(Header::of(events, 0).page_bytes);
        for (name, page_length) in [("exactly", count), ("one past", count + 1)] {
            let list = [out(3, 0, page_length as u16), demount()][..events].to_vec();
            let file = file_of(list, vec![0x5A; count]);
            put(sink, Group::SalvagePages, format!("{name} {count} bytes"), file.clone());
            let cut = file[..file.len() - 1].to_vec();
            put(sink, Group::SalvagePages, format!("{name} {count} bytes, cut by one"), cut);
        }
        let after = [&vec![demount(); events][..], &[wrong()]].concat();
        put(
            sink,
            Group::SalvagePages,
            format!("{events} and a wrong one"),
            file_of(after, vec![0x5A; count - 8]),
        );
    }
}
