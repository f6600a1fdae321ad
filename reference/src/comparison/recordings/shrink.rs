//! A recording with a difference, made short: events are dropped, page bytes cut, bytes zeroed. The header's numbers
//! move with what is taken away, so that a sound recording stays sound, and a wrong header number stays as wrong.

use super::builder::change_header;
use crate::comparison::page_builder::set_length;
use crate::recording::{broken_rules, events_end, Event, Header, EVENT_BYTES, HEADER_BYTES};
use crate::stream::kind;
use std::time::{Duration, Instant};

/// The most recordings tried and the longest time taken.
const TRIES: usize = 3000;
const TIME: Duration = Duration::from_secs(20);
/// The most runs of one length that a recording is cut into: of a long one, short runs aren't tried.
const RUNS: usize = 256;

/// A short recording and its difference.
pub struct Short<Difference> {
    pub file: Vec<u8>,
    pub difference: Difference,
}

/// Compares a file on both sides; the difference, if any.
pub type Compare<'parts, Difference> = dyn Fn(&[u8]) -> Option<Difference> + 'parts;

/// Tries recordings on the other program and keeps the last one with a difference.
struct Shrinker<'parts, Difference> {
    compare: &'parts Compare<'parts, Difference>,
    sound: bool,
    tries: usize,
    end: Instant,
    short: Short<Difference>,
}

/// The difference over a recording, which is made short if that is asked for.
pub fn difference<Difference>(
    file: &[u8],
    compare: &Compare<Difference>,
    made_short: bool,
) -> Option<Short<Difference>> {
    let difference = compare(file)?;
    let short = Short { file: file.to_vec(), difference };
    Some(if made_short { shrink(short, compare) } else { short })
}

/// Makes a recording short.
fn shrink<Difference>(short: Short<Difference>, compare: &Compare<Difference>) -> Short<Difference> {
    let mut shrinker = Shrinker {
        compare,
        sound: broken_rules(&short.file).is_empty(),
        tries: TRIES,
        end: Instant::now() + TIME,
        short,
    };
    loop {
        let before = shrinker.short.file.clone();
        shrinker.drop_events();
        shrinker.cut_page_bytes();
        shrinker.cut_end();
        shrinker.zero_bytes();
        if shrinker.short.file == before {
            return shrinker.short;
        }
    }
}

impl<Difference> Shrinker<'_, Difference> {
    /// Keeps a file if it has a difference and is sound or wrong as the first was.
    fn keep(&mut self, file: Option<Vec<u8>>) -> bool {
        let Some(file) = file.filter(|file| *file != self.short.file) else { return false };
        if self.tries == 0 || Instant::now() >= self.end || broken_rules(&file).is_empty() != self.sound {
            return false;
        }
        self.tries -= 1;
        match (self.compare)(&file) {
            None => false,
            Some(difference) => {
                self.short = Short { file, difference };
                true
            }
        }
    }

    /// Drops runs of events, long runs first.
    fn drop_events(&mut self) {
        let mut run = events_in(&self.short.file).next_power_of_two();
        while run > events_in(&self.short.file) / RUNS {
            let mut start = 0;
            while start + run <= events_in(&self.short.file) {
                if !self.keep(without_events(&self.short.file, start, run)) {
                    start += run;
                }
            }
            run /= 2;
        }
    }

    /// Cuts runs of page bytes, long runs first; the pages' own lengths as they were or made right.
    fn cut_page_bytes(&mut self) {
        let mut run = page_bytes_in(&self.short.file).next_power_of_two();
        while run > page_bytes_in(&self.short.file) / RUNS {
            let mut start = 0;
            while start + run <= page_bytes_in(&self.short.file) {
                let cut = without_page_bytes(&self.short.file, start, run);
                let right = cut.clone().map(with_right_pages);
                if !self.keep(right) && !self.keep(cut) {
                    start += run;
                }
            }
            run /= 2;
        }
    }

    /// Cuts bytes off the end of the file, whatever they are, the total as it was or lessened with them.
    fn cut_end(&mut self) {
        let mut run = self.short.file.len().next_power_of_two();
        while run > 0 {
            let file = &self.short.file;
            let cut = file.len().checked_sub(run).map(|left| file[..left].to_vec());
            let mut lessened = cut.clone();
            if let Some(file) = &mut lessened {
                change_header(file, |header| header.total = header.total.wrapping_sub(run as u16));
            }
            if !self.keep(lessened) && !self.keep(cut) {
                run /= 2;
            }
        }
    }

    /// Zeroes runs of bytes after the header, long runs first.
    fn zero_bytes(&mut self) {
        let size = self.short.file.len();
        let mut run = size.next_power_of_two();
        while run > size / RUNS {
            for start in (HEADER_BYTES..size).step_by(run) {
                let mut file = self.short.file.clone();
                let Some(bytes) = file.get_mut(start..(start + run).min(size)) else { break };
                bytes.fill(0);
                self.keep(Some(file));
            }
            run /= 2;
        }
    }
}

/// How many events a file's header counts, of those that the file has bytes for.
fn events_in(file: &[u8]) -> usize {
    let room = file.len().saturating_sub(HEADER_BYTES) / EVENT_BYTES;
    Header::read(file).map_or(0, |header| usize::from(header.event_count)).min(room)
}

/// How many bytes come after those events.
fn page_bytes_in(file: &[u8]) -> usize {
    file.len().saturating_sub(events_end(events_in(file)))
}

/// A file without some of its events.
fn without_events(file: &[u8], start: usize, count: usize) -> Option<Vec<u8>> {
    let at = events_end(start);
    let mut file = [file.get(..at)?, file.get(at + count * EVENT_BYTES..)?].concat();
    change_header(&mut file, |header| {
        let bytes = (count * EVENT_BYTES) as u16;
        header.event_count = header.event_count.wrapping_sub(count as u16);
        header.page_bytes = header.page_bytes.wrapping_sub(bytes);
        header.total = header.total.wrapping_sub(bytes);
    });
    Some(file)
}

/// Changes each OUT event of a file.
fn change_outs(file: &mut [u8], mut change: impl FnMut(&mut Event)) {
    let end = events_end(events_in(file));
    let events = file.get_mut(HEADER_BYTES..end).into_iter();
    for bytes in events.flat_map(|events| events.chunks_exact_mut(EVENT_BYTES)) {
        let mut event = Event::read((&*bytes).try_into().expect("eight bytes"));
        if event.kind == kind::OUT {
            change(&mut event);
            bytes.copy_from_slice(&event.bytes());
        }
    }
}

/// A file without some of its page bytes. Pages that had them are shorter, pages after them start sooner, and a page
/// that ended past the end still does.
fn without_page_bytes(file: &[u8], start: usize, count: usize) -> Option<Vec<u8>> {
    let at = file.len() - page_bytes_in(file) + start;
    let mut file = [file.get(..at)?, file.get(at + count..)?].concat();
    change_header(&mut file, |header| header.total = header.total.wrapping_sub(count as u16));
    change_outs(&mut file, |event| cut_from_page(event, start, count));
    Some(file)
}

/// An event's page where so many page bytes are cut: one that had them is shorter, one after them starts sooner.
pub fn cut_from_page(event: &mut Event, start: usize, count: usize) {
    let moved = |position: usize| position - position.saturating_sub(start).min(count);
    let offset = usize::from(event.page_offset);
    let end = moved(offset + usize::from(event.page_length));
    event.page_offset = moved(offset) as u16;
    event.page_length = (end - moved(offset)) as u16;
}

/// A file whose pages tell their own lengths.
fn with_right_pages(mut file: Vec<u8>) -> Vec<u8> {
    let mut pages = Vec::new();
    let start = file.len() - page_bytes_in(&file);
    change_outs(&mut file, |event| {
        let offset = start + usize::from(event.page_offset);
        pages.push(offset..offset + usize::from(event.page_length));
    });
    for page in pages {
        if let Some(page) = file.get_mut(page) {
            set_length(page);
        }
    }
    file
}
