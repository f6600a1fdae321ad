//! Unit attentions pending: both flags, each call that asks for them and each that doesn't.

use crate::comparison::page_builder::SetPage;
use crate::comparison::record_builder::mixed;
use crate::comparison::session::{
    event, event_of, load, read, read_status, security_in, security_out, vendor_release, write, Session, Sink,
};
use crate::record::Record;
use crate::stream::{kind, Command};

/// Calls with good and bad arguments from a nexus.
fn calls(nexus: u8) -> Vec<Command> {
    let k = SetPage::k().bytes();
    vec![
        security_in(nexus, 0x0020, 30),
        Command { protocol: 0x21, ..security_in(nexus, 0x0020, 30) },
        security_in(nexus, 0x0099, 30),
        security_out(nexus, k.clone()),
        Command { protocol: 0x00, ..security_out(nexus, k.clone()) },
        Command { argument: 0x0011, ..security_out(nexus, k.clone()) },
        security_out(nexus, k[..51].to_vec()),
        security_out(nexus, SetPage::public(false).bytes()),
        write(nexus, true),
        write(nexus, false),
        read(nexus, 1, 0),
        read(nexus, 3, 5),
        event(kind::LOGICAL_UNIT_RESET),
        event(kind::DEMOUNT),
        event_of(kind::NEXUS_RESERVATION_LOSS, nexus),
        event(kind::DEVICE_RESERVATION_LOSS),
        event_of(kind::PREEMPT, nexus),
        event(kind::MICROCODE),
        vendor_release(2),
        read_status(vec![0; 24]),
    ]
}

/// A record in which a nexus has these flags and mark, and so has its neighbour.
fn record(nexus: u8, bits: u8) -> Record {
    let mut record = mixed();
    for at in [usize::from(nexus), (usize::from(nexus) + 1) % 16] {
        record.nexuses[at].changed_by_another_nexus = bits & 1 != 0;
        record.nexuses[at].changed_by_vendor_event = bits & 2 != 0;
        record.nexuses[at].registered = bits & 4 != 0;
    }
    record
}

pub fn sessions(sink: &mut Sink) {
    for nexus in [0, 3, 5, 9] {
        for bits in 0..8 {
            for call in calls(nexus) {
                for then in [call.clone(), write(nexus, true)] {
                    let load = load(&record(nexus, bits));
                    let commands = vec![load, call.clone(), then.clone(), then, write(nexus + 1, true)];
                    sink(Session { name: "unit attentions pending".to_string(), commands });
                }
            }
        }
    }
}
