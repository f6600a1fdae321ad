//! 02, request 3: the layout of a recording: a header, the events, the page bytes. Nothing is run here.

use super::sound;

/// 02, request 3: "Header, four big-endian 16-bit numbers".
pub const HEADER_BYTES: usize = 8;
/// 02, request 3: "Each event has 8 bytes".
pub const EVENT_BYTES: usize = 8;
/// The longest file that its own total, a number of 16 bits, can tell.
pub const LONGEST: usize = 65_535;
/// The most events of such a file.
pub const MOST_EVENTS: usize = (LONGEST - HEADER_BYTES) / EVENT_BYTES;

/// Where so many events end, and the page bytes start: "The page bytes start just after the last event".
pub fn events_end(events: usize) -> usize {
    HEADER_BYTES + events * EVENT_BYTES
}

/// 02, request 3: "event count, offset of the first event (8), offset of the page bytes, total length".
#[derive(Clone, Copy, PartialEq, Eq, Debug)]
pub struct Header {
    pub event_count: u16,
    pub first_event: u16,
    pub page_bytes: u16,
    pub total: u16,
}

impl Header {
    /// The header as a file has it, right or wrong; nothing for "a file under 8 bytes".
    pub fn read(file: &[u8]) -> Option<Header> {
        let [event_count, first_event, page_bytes, total] = numbers(*file.first_chunk()?);
        Some(Header { event_count, first_event, page_bytes, total })
    }

    /// The header's numbers in their order.
    pub fn numbers(&self) -> [u16; 4] {
        [self.event_count, self.first_event, self.page_bytes, self.total]
    }

    /// The header's bytes.
    pub fn bytes(&self) -> [u8; HEADER_BYTES] {
        bytes_of(self.numbers())
    }

    /// The header of so many events and so many page bytes. Numbers above 65,535 lose their high part: such a file's
    /// total differs from its length.
    pub fn of(events: usize, page_bytes: usize) -> Header {
        let start = events_end(events);
        Header {
            event_count: events as u16,
            first_event: HEADER_BYTES as u16,
            page_bytes: start as u16,
            total: (start + page_bytes) as u16,
        }
    }
}

/// 02, request 3: "kind, nexus, argument (16 bits), page offset from the page bytes, page length".
#[derive(Clone, Copy, PartialEq, Eq, Default, Debug)]
pub struct Event {
    pub kind: u8,
    pub nexus: u8,
    pub argument: u16,
    pub page_offset: u16,
    pub page_length: u16,
}

impl Event {
    /// The event of eight bytes, right or wrong.
    pub fn read(bytes: [u8; EVENT_BYTES]) -> Event {
        let [_, argument, page_offset, page_length] = numbers(bytes);
        Event { kind: bytes[0], nexus: bytes[1], argument, page_offset, page_length }
    }

    /// The event's eight bytes.
    pub fn bytes(&self) -> [u8; EVENT_BYTES] {
        let first = u16::from_be_bytes([self.kind, self.nexus]);
        bytes_of([first, self.argument, self.page_offset, self.page_length])
    }
}

/// Eight bytes as four big-endian numbers.
fn numbers(bytes: [u8; 8]) -> [u16; 4] {
    [0, 2, 4, 6].map(|at| u16::from_be_bytes([bytes[at], bytes[at + 1]]))
}

/// Four numbers as eight bytes, big-endian.
fn bytes_of(numbers: [u16; 4]) -> [u8; 8] {
    let mut bytes = [0; 8];
    for (place, number) in bytes.chunks_exact_mut(2).zip(numbers) {
        place.copy_from_slice(&number.to_be_bytes());
    }
    bytes
}

/// A recorded session: its events, and the bytes in which OUT events have their pages.
#[derive(Clone, PartialEq, Eq, Default, Debug)]
pub struct Recording {
    pub events: Vec<Event>,
    pub page_bytes: Vec<u8>,
}

impl Recording {
    /// The recording that a file holds; nothing where the file is refused whole with 22.
    pub fn read(file: &[u8]) -> Option<Recording> {
        if !sound::broken_rules(file).is_empty() {
            return None;
        }
        let header = Header::read(file)?;
        let (events, page_bytes) = parts(&header, file)?;
        Some(Recording { events, page_bytes: page_bytes.to_vec() })
    }

    /// The file: a header made from the parts, the events, and "The page bytes start just after the last event".
    pub fn bytes(&self) -> Vec<u8> {
        let mut file = Header::of(self.events.len(), self.page_bytes.len()).bytes().to_vec();
        file.extend(self.events.iter().flat_map(Event::bytes));
        file.extend(&self.page_bytes);
        file
    }

    /// An event's page: so many bytes as its page length, at its page offset from the page bytes; none where it isn't
    /// within them.
    pub fn page(&self, event: &Event) -> Option<&[u8]> {
        let start = usize::from(event.page_offset);
        self.page_bytes.get(start..start + usize::from(event.page_length))
    }
}

/// The events that a header counts, from byte 8 on, and the bytes after them; nothing where the file ends before.
pub fn parts<'file>(header: &Header, file: &'file [u8]) -> Option<(Vec<Event>, &'file [u8])> {
    let end = events_end(usize::from(header.event_count));
    let (events, _) = whole_events(file.get(HEADER_BYTES..end)?);
    Some((events, &file[end..]))
}

/// The whole events that some bytes hold, right or wrong, and what is left over: a part event, or nothing.
pub fn whole_events(bytes: &[u8]) -> (Vec<Event>, &[u8]) {
    let events = bytes.chunks_exact(EVENT_BYTES);
    let left_over = events.remainder();
    (events.map(|bytes| Event::read(bytes.try_into().expect("eight bytes"))).collect(), left_over)
}
