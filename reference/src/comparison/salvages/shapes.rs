//! The shapes of files that can be salvaged.

use crate::recording::{broken_rules, event_rules, Event, Recording, EVENT_BYTES};
use crate::salvage::{Damaged, Salvaged};
use crate::stream::kind;

/// A file that can be salvaged, and what it comes to.
pub struct Tried<'file> {
    pub file: &'file [u8],
    pub damaged: Damaged<'file>,
    pub salvaged: Salvaged,
}

impl<'file> Tried<'file> {
    /// A file; nothing where it can't be salvaged.
    pub fn read(file: &'file [u8]) -> Option<Tried<'file>> {
        let damaged = Damaged::read(file)?;
        let salvaged = damaged.salvaged();
        Some(Tried { file, damaged, salvaged })
    }

    /// The kept events.
    pub fn kept(&self) -> &[Event] {
        &self.salvaged.recording.events
    }

    /// The dropped ones.
    pub fn dropped(&self) -> &[Event] {
        &self.damaged.events[self.kept().len()..]
    }

    /// Whether an event breaks no rule over so many page bytes.
    fn is_sound(event: &Event, page_bytes: usize) -> bool {
        event_rules(event, page_bytes).is_empty()
    }
}

/// A shape.
#[derive(Clone, Copy, PartialEq, Eq, PartialOrd, Ord, Debug)]
pub enum Shape {
    Sound,
    /// Where the wrong event stands that ended the run.
    WrongAlone,
    WrongFirst,
    WrongBetween,
    WrongLast,
    /// What comes after it.
    OnlySoundAfter,
    OnlyWrongAfter,
    SoundAndWrongAfter,
    /// Where the page of a kept event ends.
    PageToTheEnd,
    PageToOneBeforeTheEnd,
    EmptyPageAtTheEnd,
    PagePastTheStoredTotal,
    /// Where the page ends that ended the run.
    PageOnePastTheEnd,
    EmptyPageOnePastTheEnd,
    PageEndAbove65535,
    PageWithinTheFile,
    PageWithinTheDroppedEvents,
    PageCutWithTheTail,
    /// What the page bytes are.
    NoPageBytes,
    SpareBytesBefore,
    SpareBytesAfter,
    SpareBytesOfDropped,
    PageBytesWithoutEvents,
    AnEventInThePageBytes,
    /// What the header stores.
    CountBelowTheRun,
    CountOfTheRun,
    CountBetween,
    CountAboveAll,
    TotalBelowTheOffset,
    TotalOfTheNewFile,
    AllRightButEvents,
}

impl Shape {
    pub const EVERY: [Shape; 31] = [
        Shape::Sound,
        Shape::WrongAlone,
        Shape::WrongFirst,
        Shape::WrongBetween,
        Shape::WrongLast,
        Shape::OnlySoundAfter,
        Shape::OnlyWrongAfter,
        Shape::SoundAndWrongAfter,
        Shape::PageToTheEnd,
        Shape::PageToOneBeforeTheEnd,
        Shape::EmptyPageAtTheEnd,
        Shape::PagePastTheStoredTotal,
        Shape::PageOnePastTheEnd,
        Shape::EmptyPageOnePastTheEnd,
        Shape::PageEndAbove65535,
        Shape::PageWithinTheFile,
        Shape::PageWithinTheDroppedEvents,
        Shape::PageCutWithTheTail,
        Shape::NoPageBytes,
        Shape::SpareBytesBefore,
        Shape::SpareBytesAfter,
        Shape::SpareBytesOfDropped,
        Shape::PageBytesWithoutEvents,
        Shape::AnEventInThePageBytes,
        Shape::CountBelowTheRun,
        Shape::CountOfTheRun,
        Shape::CountBetween,
        Shape::CountAboveAll,
        Shape::TotalBelowTheOffset,
        Shape::TotalOfTheNewFile,
        Shape::AllRightButEvents,
    ];

    /// Whether a file has the shape.
    pub fn is_of(self, tried: &Tried) -> bool {
        match self {
            Shape::Sound => broken_rules(tried.file).is_empty(),
            Shape::WrongAlone | Shape::WrongFirst | Shape::WrongBetween | Shape::WrongLast => {
                self.is_of_position(tried)
            }
            Shape::OnlySoundAfter | Shape::OnlyWrongAfter | Shape::SoundAndWrongAfter => {
                self.is_of_rest(tried)
            }
            Shape::PageToTheEnd
            | Shape::PageToOneBeforeTheEnd
            | Shape::EmptyPageAtTheEnd
            | Shape::PagePastTheStoredTotal => self.is_of_kept_pages(tried),
            Shape::PageOnePastTheEnd
            | Shape::EmptyPageOnePastTheEnd
            | Shape::PageEndAbove65535
            | Shape::PageWithinTheFile
            | Shape::PageWithinTheDroppedEvents
            | Shape::PageCutWithTheTail => self.is_of_dropped_page(tried),
            Shape::NoPageBytes
            | Shape::SpareBytesBefore
            | Shape::SpareBytesAfter
            | Shape::SpareBytesOfDropped
            | Shape::PageBytesWithoutEvents
            | Shape::AnEventInThePageBytes => self.is_of_page_bytes(tried),
            _ => self.is_of_header(tried),
        }
    }

    /// Where the wrong event stands.
    fn is_of_position(self, tried: &Tried) -> bool {
        let (before, from) = (tried.kept().len(), tried.dropped().len());
        match self {
            Shape::WrongAlone => (before, from) == (0, 1),
            Shape::WrongFirst => before == 0 && from > 1,
            Shape::WrongBetween => before > 0 && from > 1,
            _ => before > 0 && from == 1,
        }
    }

    /// What comes after it.
    fn is_of_rest(self, tried: &Tried) -> bool {
        let Some((_, rest)) = tried.dropped().split_first() else { return false };
        let sound =
            rest.iter().filter(|event| Tried::is_sound(event, tried.damaged.page_bytes.len())).count();
        match self {
            Shape::OnlySoundAfter => sound > 0 && sound == rest.len(),
            Shape::OnlyWrongAfter => !rest.is_empty() && sound == 0,
            _ => sound > 0 && sound < rest.len(),
        }
    }

    /// Where the pages of kept events end.
    fn is_of_kept_pages(self, tried: &Tried) -> bool {
        let end = tried.damaged.page_bytes.len();
        let header = tried.damaged.header;
        let told = usize::from(header.total).saturating_sub(usize::from(header.page_bytes));
        pages(tried.kept()).any(|(start, page_end)| match self {
            Shape::PageToTheEnd => start < page_end && page_end == end,
            Shape::PageToOneBeforeTheEnd => start < page_end && page_end + 1 == end,
            Shape::EmptyPageAtTheEnd => start == page_end && page_end == end,
            _ => page_end > told,
        })
    }

    /// Where the page ends that alone ended the run.
    fn is_of_dropped_page(self, tried: &Tried) -> bool {
        let (header, end) = (tried.damaged.header, tried.damaged.page_bytes.len());
        let Some((start, page_end)) = pages(tried.dropped().get(..1).unwrap_or_default()).next() else {
            return false;
        };
        match self {
            Shape::PageOnePastTheEnd => start < page_end && page_end == end + 1,
            Shape::EmptyPageOnePastTheEnd => start == page_end && page_end == end + 1,
            Shape::PageEndAbove65535 => page_end > 0xFFFF && page_end & 0xFFFF <= end,
            Shape::PageWithinTheFile => page_end <= tried.file.len(),
            Shape::PageWithinTheDroppedEvents => page_end <= end + tried.dropped().len() * EVENT_BYTES,
            _ => usize::from(header.page_bytes) + page_end <= usize::from(header.total),
        }
    }

    /// What the page bytes are.
    fn is_of_page_bytes(self, tried: &Tried) -> bool {
        let Damaged { events, page_bytes, .. } = &tried.damaged;
        let kept_end = pages(tried.kept()).map(|page| page.1).max().unwrap_or(0);
        match self {
            Shape::NoPageBytes => page_bytes.is_empty() && !events.is_empty(),
            Shape::SpareBytesBefore => pages(tried.kept()).map(|page| page.0).min().is_some_and(|it| it > 0),
            Shape::SpareBytesAfter => kept_end > 0 && kept_end < page_bytes.len(),
            Shape::SpareBytesOfDropped => {
                pages(tried.dropped()).any(|page| page.1 > kept_end && page.1 <= page_bytes.len())
            }
            Shape::PageBytesWithoutEvents => tried.kept().is_empty() && !page_bytes.is_empty(),
            _ => {
                let first = page_bytes.first_chunk().map(|bytes| Event::read(*bytes));
                let is_sound = |event: Event| Tried::is_sound(&event, page_bytes.len() - EVENT_BYTES);
                tried.dropped().is_empty() && first.is_some_and(is_sound)
            }
        }
    }

    /// What the header stores.
    fn is_of_header(self, tried: &Tried) -> bool {
        let Recording { events, page_bytes } = &tried.salvaged.recording;
        let (old, new) = (tried.salvaged.report.old, tried.salvaged.report.new);
        let (count, all) = (usize::from(old.event_count), tried.damaged.events.len());
        match self {
            Shape::CountBelowTheRun => count < events.len(),
            Shape::CountOfTheRun => count == events.len() && count < all,
            Shape::CountBetween => count > events.len() && count < all,
            Shape::CountAboveAll => count > all,
            Shape::TotalBelowTheOffset => old.total < old.page_bytes,
            Shape::TotalOfTheNewFile => {
                old.total == new.total && events.len() < all && !page_bytes.is_empty()
            }
            // the header is that of a sound file
            _ => {
                events.len() < all
                    && count == all
                    && old.first_event == 8
                    && usize::from(old.total) == tried.file.len()
            }
        }
    }
}

/// The start and the end of each page of some events.
fn pages(events: &[Event]) -> impl Iterator<Item = (usize, usize)> + '_ {
    events.iter().filter(|event| event.kind == kind::OUT).map(|event| {
        let start = usize::from(event.page_offset);
        (start, start + usize::from(event.page_length))
    })
}
