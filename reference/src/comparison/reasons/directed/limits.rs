//! Numbers of events up to the recording's count and above it, nexuses up to 15 and above it; recordings of more events
//! than a byte counts, and of the most there can be.

use super::{all, local, public, ASKED, OTHER};
use crate::comparison::reasons::case::{put_file, Events, Sink, Way};
use crate::comparison::recordings::builder::{every_kind, no_events, recording_of};
use crate::comparison::recordings::case::Group;
use crate::comparison::session::{event, write};
use crate::recording::{Recording, LONGEST};
use crate::stream::{kind, Command};

/// Numbers of events: small ones, and those at and past the limits of numbers of 16, 32 and 64 bits, where a number of so
/// many bits is small again.
pub const EVENTS: [&str; 12] = [
    "0",
    "1",
    "255",
    "256",
    "65535",
    "65536",
    "65538",
    "4294967295",
    "4294967298",
    "18446744073709551615",
    "18446744073709551618",
    "99999999999999999999",
];

/// Nexuses, chosen in the same way.
pub const NEXUSES: [&str; 15] = [
    "0",
    "3",
    "14",
    "15",
    "16",
    "19",
    "31",
    "255",
    "256",
    "259",
    "65539",
    "100000",
    "4294967299",
    "18446744073709551619",
    "99999999999999999999",
];

/// Numbers of events by how far past the recording's count they are.
pub const PAST_COUNT: [Events; 5] = [
    Events::PastCount(0),
    Events::PastCount(1),
    Events::PastCount(2),
    Events::PastCount(1 << 16),
    Events::PastCount(1 << 32),
];

pub fn cases(sink: &mut Sink) {
    let p7 =
        recording_of(&[local(ASKED, true), event(kind::DEMOUNT), write(ASKED, true), write(ASKED, true)]);
    for (name, recording) in [("no events", no_events()), ("P7", p7), ("every kind", every_kind())] {
        put_file(
            sink,
            Group::ReasonLimits,
            name,
            recording.bytes(),
            [&Way::OF_ALL[..], &near_limits()].concat(),
        );
    }
}

/// Each number of events with a nexus that the drive has and with one that it hasn't, and each nexus after all events and
/// after more than there are.
pub fn near_limits() -> Vec<Way> {
    let events = EVENTS.map(Events::Digits).into_iter().chain(PAST_COUNT);
    let by_events =
        events.flat_map(|events| ["3", "16"].map(|nexus| Way::One { events, nexus, support: "1" }));
    let by_nexus = NEXUSES.into_iter().flat_map(|nexus| {
        [(PAST_COUNT[0], "0"), (PAST_COUNT[1], "1")].map(|(events, support)| Way::One {
            events,
            nexus,
            support,
        })
    });
    by_events.chain(by_nexus).collect()
}

/// A touch at a position that doesn't fit a byte, and one near the end of the longest recording. Of that one only single
/// writes are asked.
pub fn long_ones(sink: &mut Sink) {
    let one = |events| Way::One { events, nexus: "3", support: "1" };
    let touched = |before: usize, after: usize| -> Recording {
        let mut commands = vec![public(ASKED, true)];
        commands.extend(vec![event(kind::DEMOUNT); before]);
        commands.push(all(OTHER, true));
        commands.extend(vec![write(ASKED, true); after]);
        recording_of(&commands)
    };
    let ways =
        [vec![Way::Writes], PAST_COUNT.map(one).to_vec(), EVENTS.map(Events::Digits).map(one).to_vec()];
    put_file(sink, Group::ReasonLimits, "300 events", touched(270, 28).bytes(), ways.concat());
    let longest = touched(8_169, 10).bytes();
    assert!(longest.len() > LONGEST - 8, "no more events fit a recording");
    let ways = [PAST_COUNT.map(one).to_vec(), ["8170", "8171", "8172"].map(Events::Digits).map(one).to_vec()];
    put_file(sink, Group::ReasonLimits, "the longest", longest, ways.concat());
}

/// A session in which a nexus is locked, for files that are made wrong.
pub fn locked() -> Vec<Command> {
    vec![
        local(ASKED, true),
        write(ASKED, false),
        event(kind::DEMOUNT),
        write(ASKED, true),
        write(ASKED, true),
    ]
}
