//! IN with lent buffers of every size from 0 to 80, and some larger ones.

use crate::codes::scope;
use crate::comparison::record_builder::mixed;
use crate::comparison::session::{security_in, Sink, Stage};
use crate::record::{Kad, Record};

pub fn sessions(sink: &mut Sink) {
    sizes(sink);
    status_of_every_length(sink);
}

/// Each page, each size, refused and not. The status of nexus 3 is 76 bytes long at its longest.
fn sizes(sink: &mut Sink) {
    let mut record = mixed();
    record.places[2].a_kad = Kad::of(&[0xAD; 12]);
    let mut stage = Stage::new("lent buffers", record, sink);
    for size in (0..=80).chain([255, 256, 257, 1000, 4095, 4096]) {
        for code in [0x0000, 0x0001, 0x0012, 0x0020, 0x0021] {
            stage.call(security_in(3, code, size));
        }
        for nexus in [0, 2, 4, 9, 15, 16] {
            stage.call(security_in(nexus, 0x0020, size));
        }
    }
    stage.finish();
}

/// Status pages with U-KAD and A-KAD of every length, and every value of the fields before.
fn status_of_every_length(sink: &mut Sink) {
    for u_kad in 0..=32 {
        for a_kad in 0..=12 {
            if u_kad % 8 != 0 && a_kad % 4 != 0 && u_kad != a_kad {
                continue;
            }
            let record = with_kads(u_kad, a_kad);
            let mut stage = Stage::new("status pages of every length", record, sink);
            for nexus in [3, 9, 5] {
                stage.call(security_in(nexus, 0x0020, 80));
            }
            stage.finish();
        }
    }
}

/// A record whose sets of nexus 3 and of place 0 have key-associated data of these lengths.
fn with_kads(u_kad: usize, a_kad: usize) -> Record {
    let mut record = mixed();
    record.nexuses[9].changed_by_vendor_event = false;
    if u_kad & 1 == 0 {
        record.nexuses[9].scope = scope::PUBLIC;
    }
    for (place, fill) in [(0, 0x55), (2, 0xEE)] {
        let set = &mut record.places[place];
        set.u_kad = Kad::of(&vec![fill; u_kad]);
        set.a_kad = Kad::of(&vec![fill + 1; a_kad]);
        set.encryption = (u_kad % 3) as u8;
        set.decryption = (a_kad % 4) as u8;
        set.ceem = ((u_kad + a_kad) % 4) as u8;
        set.rdmd = matches!((u_kad + a_kad) % 3, 0);
        set.number = 0x0102_0304u32.wrapping_mul(1 + u_kad as u32);
    }
    record
}
