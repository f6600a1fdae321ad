//! The list of writes that aren't claimed: no event is lost, and a long list stays readable.

use crate::markup::{assert_sound, rows, Element};
use crate::recorded::recorded;
use crate::{page_of, written};
use reference::comparison::recordings::directed;
use reference::recording::{Event, Recording, MOST_EVENTS};
use reference::stream::kind;
use std::collections::BTreeSet;

/// An unclaimed write on a page or in a recording: its event, its nexus and its outcome.
type Unclaimed = (usize, u8, String);

/// The unclaimed writes that a page lists.
fn listed(elements: &[Element]) -> Vec<Unclaimed> {
    let mut listed = Vec::new();
    for row in rows(elements, "unclaimed").iter().skip(1) {
        let (outcome, _) = row[2].trim_start().split_once(':').expect("the outcome stands first");
        let events = positions(&row[0]);
        listed.extend(
            events
                .iter()
                .map(|&event| (event, row[1].parse().expect("the host is a number"), outcome.to_string())),
        );
    }
    listed
}

/// The events of a cell, whose count stands after them where they are more than one.
fn positions(cell: &str) -> Vec<usize> {
    let number = |text: &str| text.parse::<usize>().unwrap_or_else(|_| panic!("{cell}"));
    let (ranges, count) = cell.split_once(" (").unwrap_or((cell, "1 writes)"));
    let mut positions = Vec::new();
    for range in ranges.split(", ") {
        let (first, last) = range.split_once('–').unwrap_or((range, range));
        positions.extend(number(first)..=number(last));
    }
    let count = count.strip_suffix(" writes)").expect("it is a count of writes");
    assert_eq!(positions.len(), number(&count.replace(',', "")), "{cell}");
    positions
}

/// The unclaimed writes of a recording.
fn unclaimed(recording: &Recording) -> BTreeSet<Unclaimed> {
    let unclaimed = written(recording).into_iter().filter(|write| !write.fate.is_claimed());
    unclaimed.map(|write| (write.position, write.nexus, write.fate.column().name().to_string())).collect()
}

/// Holds the page of a recording against its writes; gives the rows of the list.
fn assert_listed(name: &str, recording: &Recording) -> Vec<Vec<String>> {
    let elements = assert_sound(&page_of(name, 250, recording));
    let (listed, unclaimed) = (listed(&elements), unclaimed(recording));
    assert_eq!(listed.len(), unclaimed.len(), "{name}");
    assert_eq!(listed.into_iter().collect::<BTreeSet<_>>(), unclaimed, "{name}");
    rows(&elements, "unclaimed").into_iter().skip(1).collect()
}

/// So many writes, each of the nexus and with the support flag of its position.
fn writes_of(count: usize, write: impl Fn(usize) -> (u8, u16)) -> Vec<Event> {
    let event = |(nexus, argument)| Event { kind: kind::WRITE, nexus, argument, ..Event::default() };
    (0..count).map(write).map(event).collect()
}

#[test]
fn every_unclaimed_write_of_many_recordings_is_listed() {
    let mut unclaimed_writes = 0;
    for case in directed() {
        if let Some(recording) = Recording::read(&case.file) {
            assert_listed(&case.name, &recording);
            unclaimed_writes += unclaimed(&recording).len();
        }
    }
    assert!(unclaimed_writes > 1000, "{unclaimed_writes} is too few to tell");
}

#[test]
fn a_host_s_equal_writes_stand_in_one_row() {
    let recording = recorded(
        "write nexus 0 supported\n\
         write nexus 0 supported\n\
         write nexus 1 supported\n\
         demount\n\
         write nexus 0 not supported\n\
         write nexus 1 supported\n\
         out nexus 0 page 0010h local encrypt decrypt key A7*32\n\
         write nexus 0 supported\n\
         write nexus 0 not supported\n\
         write nexus 0 not supported\n\
         out nexus 0 page 0010h public\n\
         write nexus 0 supported\n",
    );
    let rows = assert_listed("rows.rec", &recording);
    let events: Vec<(&str, &str)> = rows.iter().map(|row| (&*row[0], &*row[1])).collect();
    assert_eq!(
        events,
        [("0–1, 4 (3 writes)", "0"), ("2, 5 (2 writes)", "1"), ("8–9 (2 writes)", "0"), ("11", "0")]
    );
}

#[test]
fn the_longest_lists_stay_short() {
    let of = |events: Vec<Event>| Recording { events, page_bytes: Vec::new() };
    let one = of(writes_of(MOST_EVENTS, |_| (7, 1)));
    assert_eq!(assert_listed("one host", &one)[0][0], "0–8189 (8,190 writes)");
    let in_turn = of(writes_of(MOST_EVENTS, |position| ((position % 16) as u8, 1)));
    assert_eq!(assert_listed("hosts in turn", &in_turn).len(), 16);
    let any = of(writes_of(MOST_EVENTS, |position| ((position * 7 % 256) as u8, (position % 2) as u16)));
    assert_eq!(assert_listed("any nexus", &any).len(), 256);
    let mut every_second = recorded("out nexus 0 page 0010h local encrypt decrypt key A7*32\n");
    every_second.events.extend(writes_of(8180, |position| (0, (position % 2) as u16)));
    assert_eq!(assert_listed("every second", &every_second).len(), 1);
    for recording in [one, in_turn, any, every_second] {
        assert!(page_of("long.rec", 250, &recording).len() < 200_000);
    }
}
