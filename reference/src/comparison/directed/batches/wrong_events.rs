//! Events that are wrong by a field or by their page.

use crate::comparison::page_builder::SetPage;
use crate::comparison::recordings::builder::out;
use crate::recording::{event_rules, Event, FileRule, EVENT_BYTES};
use crate::stream::kind;

/// The page bytes over which the events here are wrong: page K.
pub fn page_bytes() -> Vec<u8> {
    SetPage::k().bytes()
}

/// One event for each rule, which breaks that rule alone.
pub fn one_of_each() -> Vec<(FileRule, Event)> {
    let of_kind = |kind| Event { kind, ..Event::default() };
    let events = [
        (FileRule::Kind, of_kind(12)),
        (FileRule::SupportFlag, Event { nexus: 3, argument: 2, ..of_kind(kind::WRITE) }),
        (FileRule::UnusedNexus, Event { nexus: 3, ..of_kind(kind::DEMOUNT) }),
        (FileRule::UnusedArgument, Event { argument: 1, ..of_kind(kind::PREEMPT) }),
        (FileRule::UnusedPageOffset, Event { page_offset: 52, ..of_kind(kind::WRITE) }),
        (FileRule::UnusedPageLength, Event { page_length: 52, ..of_kind(kind::IN) }),
        (FileRule::PagePastEnd, out(3, 0, 53)),
    ];
    for (rule, event) in &events {
        assert_eq!(event_rules(event, page_bytes().len()), [*rule]);
    }
    events.to_vec()
}

/// Every kind that there isn't, wrong support flags, each byte of each unused field of each kind, and pages past the
/// page bytes.
pub fn every() -> Vec<Event> {
    let mut events: Vec<Event> = (12..=255).map(|kind| Event { kind, ..Event::default() }).collect();
    for argument in [2, 3, 0x0080, 0x00FF, 0x0100, 0x0101, 0x0200, 0x8000, 0x8001, 0xFFFF] {
        events.extend([3, 16].map(|nexus| Event { kind: kind::WRITE, nexus, argument, ..Event::default() }));
    }
    for kind in 0..12 {
        for byte in 1..EVENT_BYTES {
            for value in [1, 3, 128, 255] {
                let mut bytes = Event { kind, ..Event::default() }.bytes();
                bytes[byte] = value;
                events.push(Event::read(bytes));
            }
        }
    }
    for (offset, length) in [
        (0, 53),
        (1, 52),
        (52, 1),
        (53, 0),
        (60, 0),
        (0, 60),
        (0, u16::MAX),
        (u16::MAX, 0),
        (u16::MAX, 1),
        (u16::MAX, 53),
        (1, u16::MAX),
        (0x8000, 0x8000),
        (u16::MAX - 10, 63),
    ] {
        events.extend([3, 16].map(|nexus| out(nexus, offset, length)));
        events.push(Event { argument: 0x0011, ..out(3, offset, length) });
    }
    events.retain(|event| !event_rules(event, page_bytes().len()).is_empty());
    events
}
