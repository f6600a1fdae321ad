//! Files of 7 and 8 bytes, and of 65,535 and 65,536.

use super::{demount, wrong};
use crate::comparison::recordings::builder::{change_header, file_of};
use crate::comparison::recordings::case::{put, Group, Sink};
use crate::recording::{events_end, Header, HEADER_BYTES, LONGEST};

pub fn recordings(sink: &mut Sink) {
    short(sink);
    header_alone(sink);
    around_the_longest(sink);
    too_long(sink);
}

/// Fewer than 8 bytes, whatever offset there is.
fn short(sink: &mut Sink) {
    for length in 0..HEADER_BYTES {
        put(sink, Group::SalvageLengths, format!("{length} bytes of FFh"), vec![0xFF; length]);
        let file = [0, 1, 0, 8, 0, 8, 0, 7][..length].to_vec();
        put(sink, Group::SalvageLengths, format!("{length} bytes, page bytes at 8"), file);
    }
}

/// A header alone or nearly so, whose page offset is 8: no events, however many it counts.
fn header_alone(sink: &mut Sink) {
    for (event_count, first_event, total) in
        [(0, 8, 8), (0, 0, 0), (1, 8, 16), (u16::MAX, u16::MAX, u16::MAX), (0, 8, 7), (0, 8, 9)]
    {
        let header = Header { event_count, first_event, page_bytes: 8, total };
        // one of them with each number of page bytes up to that of four events
        let more = if total == 9 { 0..33 } else { 0..2 };
        for more in more {
            let file = [&header.bytes()[..], &vec![0x5A; more]].concat();
            let name =
                format!("{event_count} events, first at {first_event}, total {total}, {more} bytes more");
            put(sink, Group::SalvageLengths, name, file);
        }
    }
}

/// One event or a wrong one before so many page bytes that the file has this length. The total is the length's low part,
/// or 65,535.
fn long(length: usize, is_sound: bool, total: Option<u16>) -> Vec<u8> {
    let event = if is_sound { demount() } else { wrong() };
    let mut file = file_of(vec![event], vec![0x5A; length - events_end(1)]);
    change_header(&mut file, |header| header.total = total.unwrap_or(header.total));
    file
}

/// Up to 65,535 bytes a file is salvaged.
fn around_the_longest(sink: &mut Sink) {
    for length in LONGEST - 9..=LONGEST {
        let name = format!("{length} bytes");
        put(sink, Group::SalvageLengths, name.clone(), long(length, true, None));
        put(sink, Group::SalvageLengths, name.clone() + ", the event wrong", long(length, false, None));
        put(sink, Group::SalvageLengths, name + ", total 0", long(length, true, Some(0)));
    }
}

/// One byte more and it isn't, nor with many more, whatever the length's low part or the new file's length would be.
fn too_long(sink: &mut Sink) {
    for length in [65_536, 65_537, 65_544, 131_072, 131_080] {
        let name = format!("{length} bytes");
        put(sink, Group::SalvageLengths, name.clone(), long(length, true, None));
        put(
            sink,
            Group::SalvageLengths,
            name.clone() + ", the event wrong",
            long(length, false, Some(u16::MAX)),
        );
        for offset in [0, 8, 15, u16::MAX] {
            let mut file = long(length, true, None);
            change_header(&mut file, |header| header.page_bytes = offset);
            put(sink, Group::SalvageLengths, format!("{name}, page bytes at {offset}"), file);
        }
    }
}
