//! Days of calls, of which batches are made: each call shows, by its answer or in the record.

use crate::codes::scope;
use crate::comparison::page_builder::{descriptor, SetPage};
use crate::comparison::session::{
    event, event_of, power_on, read, security_in, security_out, vendor_release, write,
};
use crate::stream::{kind, Command};

/// So many calls of a busy day, which differs by `start`: pages of every scope and of all modes, supplemental keys,
/// writes, reads, IN and events of nexuses 0 to 6, done and refused.
pub fn day(start: usize, count: usize) -> Vec<Command> {
    (0..count).map(|turn| call(start * 11 + turn)).collect()
}

/// One call of a day.
fn call(at: usize) -> Command {
    let [nexus, other] = [at * 3, at * 5 + 1].map(|number| (number % 7) as u8);
    match at % 19 {
        0 | 9 => security_out(nexus, page(scope::LOCAL, at)),
        1 => write(nexus.wrapping_sub(3) % 7, true),
        2 => security_out(other, page(scope::ALL, at)),
        3 | 14 => write(other, matches!(at % 4, 0)),
        4 => read(nexus, (at % 3) as u8, [255, 0, 1][at % 3]),
        5 => security_out(nexus, SetPage::supplemental(scope::LOCAL, 2 + (at % 2) as u8, at as u8).bytes()),
        6 => security_in(other, [0x0020, 0x0013, 0x0000][at % 3], 30),
        7 => [event(kind::DEMOUNT), event(kind::DEVICE_RESERVATION_LOSS)][at % 2].clone(),
        8 => write(other, true),
        10 => event_of(kind::PREEMPT, other),
        11 => read(other, 1, 255),
        12 => security_out(other, SetPage::public(matches!(at % 2, 0)).bytes()),
        13 => event_of(kind::NEXUS_RESERVATION_LOSS, nexus),
        15 => vendor_release((at % 6) as u16),
        16 => security_out(nexus, SetPage::k().bytes()[..40 + at % 13].to_vec()),
        17 => {
            [event(kind::LOGICAL_UNIT_RESET), write(16 + nexus, true), event(kind::MICROCODE)][at % 3].clone()
        }
        _ => read(nexus, 0, 255),
    }
}

/// A page of a scope whose modes, bits and descriptors differ by the call.
fn page(scope: u8, at: usize) -> Vec<u8> {
    let modes = SetPage::of_modes(scope, (at % 3) as u8, (at / 3 % 4) as u8);
    let list = if modes.encryption == 2 { descriptor(0, 3, 3) } else { Vec::new() };
    let [lock, ckod, ckorp, ckorl] = [2, 3, 5, 7].map(|part| matches!(at % part, 0));
    SetPage { lock, ckod, ckorp, ckorl, list, ..modes }.bytes()
}

/// A call of every kind, power-on in the middle.
pub fn every_kind() -> Vec<Command> {
    vec![
        security_out(3, SetPage::k().bytes()),
        security_in(3, 0x0020, 0),
        write(3, true),
        read(3, 1, 0),
        event_of(kind::NEXUS_RESERVATION_LOSS, 3),
        event(kind::DEVICE_RESERVATION_LOSS),
        power_on(),
        security_out(3, SetPage::k().bytes()),
        event(kind::DEMOUNT),
        event_of(kind::PREEMPT, 5),
        event(kind::LOGICAL_UNIT_RESET),
        vendor_release(1),
        event(kind::MICROCODE),
    ]
}
