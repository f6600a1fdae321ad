//! The stream's limits of a batch: where its events end, its data, its lent buffer, the fields that are ignored.

use super::days::day;
use crate::comparison::batch_builder::{p7, BatchParts};
use crate::comparison::record_builder::{full, mixed};
use crate::comparison::recordings::builder::out;
use crate::comparison::session::{batch, event, give_record, power_on, write, Session, Sink, Stage};
use crate::record::Record;
use crate::stream::{kind, Command, LENT_LIMIT};

pub fn sessions(sink: &mut Sink) {
    let mut damaged = mixed();
    damaged.nexuses[5].scope = 3;
    for record in [Record::power_on(), mixed(), damaged] {
        let mut stage = Stage::new("limits of batches", record, sink);
        short_data(&mut stage);
        ends_of_events(&mut stage);
        lent_buffers(&mut stage);
        ignored_fields(&mut stage);
        stage.finish();
    }
    data_like_commands(sink);
}

/// Data of no bytes and of a few, with lent buffers within and above the limit.
fn short_data(stage: &mut Stage) {
    for room in [0, 1, 4, 64, LENT_LIMIT, LENT_LIMIT + 1, 0xFFFF] {
        for length in 0..=12 {
            for first in [[0, 0], [0, 1], [0, 2], [0, 8], [0, 9], [0, 10], [1, 0], [8, 0], [0xFF, 0xFF]] {
                let data: Vec<u8> = first.into_iter().chain([5, 0]).chain([0; 8]).take(length).collect();
                stage.call(batch(data, room as u16));
            }
        }
    }
}

/// E at the end of the data, around it and far past it; around the end of the events; its bytes exchanged.
fn ends_of_events(stage: &mut Stage) {
    let one_page_byte = BatchParts { page_bytes: vec![7], ..BatchParts::of(&p7()[1..]) };
    for parts in [BatchParts::of(&p7()), BatchParts::of(&p7()[1..]), one_page_byte, BatchParts::default()] {
        let events = parts.event_bytes();
        let end = (events.len() + parts.page_bytes.len()) as u16;
        let mut lengths = vec![0, 1, 8, 256, end + 2, end + 8, end + 256, 0x7FFF, 0x8000, 0xFFFE, 0xFFFF];
        for near in [events.len() as u16, end, end - end % 8] {
            lengths.extend([near.saturating_sub(1), near, near + 1, near.swap_bytes(), near + 0x8000]);
        }
        for length in lengths {
            for room in [parts.room, LENT_LIMIT, LENT_LIMIT + 1] {
                stage.call(parts.clone().with_room(room).command_of(&events, length));
            }
        }
    }
}

/// Lent buffers at and above the limit, for batches that are taken and that are refused.
fn lent_buffers(stage: &mut Stage) {
    let wrong = BatchParts::new(vec![out(3, 0, 1)], Vec::new());
    let batches = [0, 1, 6, 63, 64, 65].map(|count| BatchParts::of(&day(count, count)));
    for parts in batches.into_iter().chain([wrong]) {
        for room in [0, 3, 4, 4094, 4095, 4096, 4097, 4098, 8192, 0x7FFF, 0x8000, 0x8004, 0xFFFF] {
            stage.call(parts.clone().with_room(room).command());
        }
    }
}

/// Nexus, protocol and port of any value, for batches that are taken, refused with 18 and 22, and unknown.
fn ignored_fields(stage: &mut Stage) {
    let taken = BatchParts::of(&day(4, 12));
    let wrong = taken.clone().with_left_over(2);
    let no_room = taken.clone().with_room(47);
    let unknown = taken.clone().with_room(LENT_LIMIT + 1);
    for parts in [taken, wrong, no_room, unknown] {
        for (nexus, protocol, port) in [(3, 0x20, 1), (16, 0x21, 255), (255, 0xFF, 128), (0, 0x21, 0)] {
            stage.call(Command { nexus, protocol, port, ..parts.command() });
        }
    }
}

/// Data that would be commands if they weren't taken with a batch that is unknown: they change the record.
fn data_like_commands(sink: &mut Sink) {
    let commands = [event(kind::MICROCODE), write(3, true), event(kind::DEMOUNT), give_record(), power_on()];
    let mut data = Vec::new();
    commands.iter().for_each(|command| command.give(&mut data));
    let mut stage = Stage::new("data of unknown batches", full([0, 1, 2, 3]), sink);
    for length in [1, 2, 8, 9, 16, 17, 39, 40] {
        stage.call(batch(data[..length].to_vec(), 4));
        stage.call(batch(data[..length].to_vec(), LENT_LIMIT as u16 + 1));
    }
    for length in [4097, 65_534, 65_535] {
        let data = data.iter().copied().cycle().take(length).collect();
        stage.call(batch(data, u16::MAX));
    }
    stage.finish();
    let unknown = batch(data.clone(), u16::MAX);
    let commands = vec![power_on(), unknown.clone(), unknown, write(3, true)];
    sink(Session { name: "unknown batches in a row".to_string(), commands });
}
