//! Events over mixed sets: each pattern of the CK bits, of used places and of registered nexuses.

use crate::codes::scope;
use crate::comparison::record_builder::full;
use crate::comparison::session::{event, event_of, vendor_release, Sink, Stage};
use crate::record::{Record, Set};
use crate::sizes::PLACES;
use crate::stream::{kind, Command};

/// Every event, with nexuses that own a place, own place 0, or own none.
fn events() -> Vec<Command> {
    let mut events = vec![
        event(kind::LOGICAL_UNIT_RESET),
        event(kind::DEMOUNT),
        event(kind::DEVICE_RESERVATION_LOSS),
        event(kind::MICROCODE),
    ];
    for nexus in [0, 1, 2, 3, 7, 9] {
        events.push(event_of(kind::NEXUS_RESERVATION_LOSS, nexus));
        events.push(event_of(kind::PREEMPT, nexus));
    }
    events.extend((0..PLACES as u16).map(vendor_release));
    events
}

/// A record whose sets have the chosen CK bit by the pattern, and the other two the other way round.
fn record(chosen: usize, pattern: usize, variety: usize) -> Record {
    let mut record = full([0, 1, 2, 3]);
    for place in 0..PLACES {
        let has = pattern >> place & 1 != 0;
        let set = &mut record.places[place];
        [set.ckod, set.ckorp, set.ckorl] = [0, 1, 2].map(|bit| (bit == chosen) == has);
    }
    for (number, nexus) in record.nexuses.iter_mut().enumerate() {
        nexus.registered = match variety {
            0 => true,
            1 => false,
            _ => number % 2 == 0,
        };
        nexus.lock = number % 3 == 0;
        nexus.saved_at_lock = number as u32;
    }
    match variety {
        1 => record.nexuses[9].scope = scope::PUBLIC,
        2 => {
            record.nexuses[9].scope = scope::PUBLIC;
            record.places[0] = Set::empty(1);
            record.nexuses[2].scope = scope::PUBLIC;
            record.places[3] = Set::empty(4);
        }
        3 => {
            // A LOCAL nexus owns place 0 as well, from when it was ALL.
            record.nexuses[9].scope = scope::PUBLIC;
            record.places[0].owner = 1;
        }
        _ => {}
    }
    record.put_words_right();
    record
}

pub fn sessions(sink: &mut Sink) {
    for chosen in 0..3 {
        for pattern in 0..1 << PLACES {
            for variety in 0..4 {
                let mut stage = Stage::new("events over mixed sets", record(chosen, pattern, variety), sink);
                for event in events() {
                    stage.call(event);
                }
                stage.finish();
            }
        }
    }
    let mut stage = Stage::new("events after power-on", Record::power_on(), sink);
    for event in events() {
        stage.call(event);
    }
    stage.finish();
}
