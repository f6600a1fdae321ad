//! Kind 13's place, in and out of range, and the fields that it ignores.

use crate::comparison::record_builder::mixed;
use crate::comparison::session::{serves, Sink, Stage};
use crate::comparison::word_cases::places_above_4;
use crate::record::Record;
use crate::record_bytes::RECORD_BYTES;
use crate::selection_words::bit;
use crate::stream::Command;

pub fn sessions(sink: &mut Sink) {
    let mut wrong_word = mixed();
    wrong_word.selection_words[0] ^= bit(2);
    let mut not_well_formed = mixed();
    not_well_formed.places[1].ceem = 4;
    for record in [Record::power_on(), mixed(), wrong_word, not_well_formed] {
        places(&record, sink);
        ignored(&record, sink);
    }
}

/// Places 0 to 4 and those above.
fn places(record: &Record, sink: &mut Sink) {
    let mut stage = Stage::new("places asked about", record.clone(), sink);
    for place in (0..5).chain(places_above_4()).chain([0x7FFF]) {
        stage.call(serves(place));
    }
    stage.finish();
}

/// Nexuses with something pending, without a mark and above 15; any protocol, port and length.
fn ignored(record: &Record, sink: &mut Sink) {
    let mut stage = Stage::new("fields that kind 13 ignores", record.clone(), sink);
    for place in [0, 1, 3, 4, 5, 256] {
        for nexus in [0, 1, 3, 4, 9, 15, 16, 17, 128, 255] {
            stage.call(Command { nexus, ..serves(place) });
        }
        for protocol in [0x20, 0x21, 0x01, 0xFF] {
            stage.call(Command { protocol, nexus: 4, ..serves(place) });
        }
        for port in [1, 2, 3, 255] {
            stage.call(Command { port, ..serves(place) });
        }
        for length in [1, 7, 8, 9, 52, RECORD_BYTES as u16, 4097, 0xFFFF] {
            stage.call(Command { length, ..serves(place) });
        }
        stage.call(Command { nexus: 9, protocol: 0x99, port: 7, length: 0x4321, ..serves(place) });
    }
    stage.finish();
}
