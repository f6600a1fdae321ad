//! Wrong header numbers, and files cut and lengthened.

use crate::comparison::recordings::builder::{bases, file_of, requests, with_header};
use crate::comparison::recordings::case::{put, Group, Sink};
use crate::recording::{Event, Header, Recording, HEADER_BYTES};
use crate::stream::kind;

pub fn recordings(sink: &mut Sink) {
    under_8_bytes(sink);
    for (base, recording) in bases() {
        put(sink, Group::SoundNeighbour, base, recording.bytes());
        totals(base, &recording, sink);
        lengths(base, &recording, sink);
        first_offsets(base, &recording, sink);
        page_bytes_offsets(base, &recording, sink);
        event_counts(base, &recording, sink);
        count_and_offset(base, &recording, sink);
        little_endian(base, &recording, sink);
    }
    numbers_that_wrap(sink);
    part_events(sink);
}

/// "a file under 8 bytes": the first bytes of sound files, zeros, and no bytes at all.
fn under_8_bytes(sink: &mut Sink) {
    for length in 0..HEADER_BYTES {
        for (base, recording) in bases() {
            let file = recording.bytes()[..length].to_vec();
            put(sink, Group::Under8Bytes, format!("{length} bytes of {base}"), file);
        }
        put(sink, Group::Under8Bytes, format!("{length} zeros"), vec![0; length]);
    }
    // the last number is cut, and what is left of it tells the length
    put(sink, Group::Under8Bytes, "7 bytes with total 7", vec![0, 0, 0, 8, 0, 8, 7]);
}

/// "a total differing from its length".
fn totals(base: &str, recording: &Recording, sink: &mut Sink) {
    let length = recording.bytes().len() as u16;
    for off in [1, -1, 8, -8, 256, -256, 1 << 14] {
        let file = with_header(recording, |header| header.total = header.total.wrapping_add_signed(off));
        put(sink, Group::Total, format!("{base}, total off by {off}"), file);
    }
    for total in [0, u16::MAX, length.swap_bytes()] {
        let file = with_header(recording, |header| header.total = total);
        put(sink, Group::Total, format!("{base}, total {total}"), file);
    }
}

/// The same, by the file's bytes in place of the header's number.
fn lengths(base: &str, recording: &Recording, sink: &mut Sink) {
    let file = recording.bytes();
    for more in [1, 8, 256] {
        let longer = [&file[..], &vec![0; more]].concat();
        put(sink, Group::CutOrLengthened, format!("{base}, {more} bytes more"), longer);
    }
    for fewer in [1, 8].into_iter().filter(|fewer| file.len() - fewer >= HEADER_BYTES) {
        let shorter = file[..file.len() - fewer].to_vec();
        put(sink, Group::CutOrLengthened, format!("{base}, {fewer} bytes fewer"), shorter);
    }
}

/// "offset of the first event (8)".
fn first_offsets(base: &str, recording: &Recording, sink: &mut Sink) {
    for offset in [0, 7, 9, 16, 0x0108, 0x0800, 0x8008, u16::MAX] {
        let file = with_header(recording, |header| header.first_event = offset);
        put(sink, Group::FirstOffset, format!("{base}, first event at {offset}"), file);
    }
}

/// "The page bytes start just after the last event".
fn page_bytes_offsets(base: &str, recording: &Recording, sink: &mut Sink) {
    let right = Header::of(recording.events.len(), recording.page_bytes.len());
    let nearby = [1, -1, 8, -8, 256].map(|off| right.page_bytes.wrapping_add_signed(off));
    let around_the_end = [-1, 0, 1, 8].map(|off| right.total.wrapping_add_signed(off));
    let mut offsets = [&nearby[..], &around_the_end, &[0, 7, 8, u16::MAX]].concat();
    offsets.sort();
    offsets.dedup();
    offsets.retain(|&offset| offset != right.page_bytes);
    for offset in offsets {
        let file = with_header(recording, |header| header.page_bytes = offset);
        put(sink, Group::PageBytesOffset, format!("{base}, page bytes at {offset}"), file);
    }
}

/// An event count that isn't that of the events before the page bytes.
fn event_counts(base: &str, recording: &Recording, sink: &mut Sink) {
    let right = recording.events.len() as u16;
    let mut counts = vec![right + 1, right.wrapping_sub(1), right + 256, right | 0x8000, u16::MAX, 0];
    counts.sort();
    counts.dedup();
    counts.retain(|&count| count != right);
    for count in counts {
        let file = with_header(recording, |header| header.event_count = count);
        put(sink, Group::EventCount, format!("{base}, {count} events"), file);
    }
}

/// The count and the offset agree, and an event too few or too many is told: an event more than the file has bytes for
/// is wrong; page bytes read as an event, or an event read as page bytes, are what they are.
fn count_and_offset(base: &str, recording: &Recording, sink: &mut Sink) {
    for off in [1, 2, 7, -1] {
        let Some(count) = (recording.events.len() as u16).checked_add_signed(off) else { continue };
        let file = with_header(recording, |header| {
            (header.event_count, header.page_bytes) = (count, 8 + 8 * count);
        });
        put(sink, Group::CountAndOffset, format!("{base}, events off by {off}, offset too"), file);
    }
    let zeros = Recording { page_bytes: vec![0; 15], ..recording.clone() };
    for more in 0..=2 {
        let file = with_header(&zeros, |header| {
            header.event_count += more;
            header.page_bytes += 8 * more;
        });
        let name = format!("{base}, 15 zeros as page bytes, of which {more} events are made");
        put(sink, Group::CountAndOffset, name, file);
    }
}

/// The header's four numbers with their bytes exchanged.
fn little_endian(base: &str, recording: &Recording, sink: &mut Sink) {
    let file = with_header(recording, |header| {
        let Header { event_count, first_event, page_bytes, total } = *header;
        *header = Header {
            event_count: event_count.swap_bytes(),
            first_event: first_event.swap_bytes(),
            page_bytes: page_bytes.swap_bytes(),
            total: total.swap_bytes(),
        };
    });
    put(sink, Group::LittleEndian, base, file);
}

/// Event counts whose 8 bytes each come to the stored offset only in numbers of 16 bits.
fn numbers_that_wrap(sink: &mut Sink) {
    for (count, events) in
        [(0x1FFF, 0), (0x2000, 0), (0x2001, 1), (0x4000, 0), (0x8001, 1), (0xE002, 2), (u16::MAX, 0)]
    {
        for page_bytes in [0, 9] {
            let demounts = vec![Event { kind: kind::DEMOUNT, ..Event::default() }; events];
            let recording = Recording { events: demounts, page_bytes: vec![0; page_bytes] };
            let file = with_header(&recording, |header| {
                header.event_count = count;
                header.page_bytes = count.wrapping_mul(8).wrapping_add(8);
            });
            let name = format!("{count} events told over {events}, {page_bytes} page bytes");
            put(sink, Group::NumbersThatWrap, name, file);
        }
    }
}

/// Bytes of an event before the page bytes that are no whole event; a last event that is cut. A few bytes after the
/// last event are page bytes.
fn part_events(sink: &mut Sink) {
    let event = requests().events[0];
    for part in 1..8 {
        let with_rest = Recording { events: vec![event], page_bytes: event.bytes()[..part].to_vec() };
        let file = with_header(&with_rest, |header| header.page_bytes += part as u16);
        put(sink, Group::PartEvent, format!("{part} bytes of a second event"), file);
        let file = with_header(&with_rest, |header| {
            header.event_count += 1;
            header.page_bytes += part as u16;
        });
        put(sink, Group::PartEvent, format!("{part} bytes of a second event, which is counted"), file);
        let file = with_header(&with_rest, |header| {
            header.event_count += 1;
            header.page_bytes += 8;
        });
        put(sink, Group::PartEvent, format!("{part} bytes of a second event, told as whole"), file);
        put(sink, Group::SoundNeighbour, format!("{part} bytes after the last event"), with_rest.bytes());
    }
    put(sink, Group::SoundNeighbour, "two whole events", file_of(vec![event; 2], Vec::new()));
}
