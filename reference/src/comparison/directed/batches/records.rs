//! Starting records that aren't well formed: each event answers 1 until a power-on event.

use super::days::every_kind;
use crate::comparison::batch_builder::{p7, BatchParts};
use crate::comparison::directed::read_checks::not_well_formed_records;
use crate::comparison::directed::records::is_bulk;
use crate::comparison::page_builder::SetPage;
use crate::comparison::record_builder::{full, mixed};
use crate::comparison::session::{
    event, load, power_on, read, security_out, vendor_release, write, Session, Sink, Stage,
};
use crate::record_bytes::{self, WORDS_START};
use crate::stream::{kind, Command};

/// Records in one session.
const LOADS: usize = 15;

pub fn sessions(sink: &mut Sink) {
    each_clause(sink);
    one_bit_away(sink);
}

/// Some calls, without power-on and with it first, in the middle, last and twice.
fn batches() -> Vec<Vec<Command>> {
    let k = security_out(3, SetPage::k().bytes());
    let start =
        [write(3, true), read(16, 3, 9), k.clone(), event(kind::LOGICAL_UNIT_RESET), vendor_release(9)];
    let end = [k, write(3, true), event(kind::DEMOUNT), write(3, true)];
    vec![
        Vec::new(),
        vec![write(3, true)],
        vec![power_on()],
        start.to_vec(),
        [&start[..], &[power_on()]].concat(),
        [&[power_on()], &end[..]].concat(),
        [&start[..], &[power_on()], &end].concat(),
        [&start[..], &[power_on()], &end, &[power_on()], &start].concat(),
        every_kind(),
        [p7(), every_kind(), p7()].concat(),
    ]
}

/// Each clause of well-formedness broken.
fn each_clause(sink: &mut Sink) {
    for record in not_well_formed_records() {
        let mut stage = Stage::new("batches from a record that isn't well formed", record, sink);
        for commands in batches() {
            let batch = BatchParts::of(&commands);
            stage.call(batch.clone().with_room(batch.room + 3).command());
        }
        stage.finish();
    }
}

/// Each bit of codes, owners, lengths and words turned, and one bit of other bytes, in a record of many kinds of set and in
/// one with every place used: a batch without power-on, and one with it. The words are those that the scopes then say, unless
/// the bit is one of theirs.
fn one_bit_away(sink: &mut Sink) {
    let k = security_out(3, SetPage::k().bytes());
    let without = BatchParts::of(&[write(0, true), event(kind::LOGICAL_UNIT_RESET), k]);
    let mended = BatchParts::of(&[&p7()[..2], &[power_on()], &p7()[..]].concat());
    let mut commands = Vec::new();
    for record in [mixed(), full([4, 3, 2, 1])] {
        let bytes = record_bytes::give(&record);
        for at in 0..bytes.len() {
            let bits = if is_bulk(at) { at % 8..at % 8 + 1 } else { 0..8 };
            for bit in bits {
                let mut turned = bytes.clone();
                turned[at] ^= 1 << bit;
                // a mark of 2 and above isn't taken
                if let Some(mut record) = record_bytes::load(&turned) {
                    if at < WORDS_START {
                        record.put_words_right();
                    }
                    let batch = if (at + bit) % 3 == 0 { &mended } else { &without };
                    commands.extend([load(&record), batch.command()]);
                }
            }
        }
    }
    for commands in commands.chunks(2 * LOADS) {
        let name = "batches from records one bit away from well formed".to_string();
        sink(Session { name, commands: commands.to_vec() });
    }
}
