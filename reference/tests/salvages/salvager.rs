//! The parts of a salvager, by the library, that the faults put together wrongly.

use crate::written::{printed, refused};
use reference::comparison::salvages::{Given, Way};
use reference::recording::{event_rules, Event, FileRule, Header, Recording};
use reference::salvage::{Damaged, Report, Salvaged};

/// The refusal of a file.
pub fn refused_21() -> Given {
    refused("21 the recording can't be salvaged")
}

/// Bytes on standard output.
pub fn written(output: Vec<u8>) -> Given {
    Given { output, errors: Vec::new() }
}

/// The new file, or the report.
pub fn shown(salvaged: &Salvaged, way: Way) -> Given {
    match way {
        Way::File => written(salvaged.file()),
        Way::Report => printed(salvaged.report.lines()),
    }
}

/// What comes of what a reader made of the file.
pub fn of_read(damaged: Option<Damaged>, way: Way) -> Given {
    damaged.map_or_else(refused_21, |damaged| shown(&damaged.salvaged(), way))
}

/// The right salvager.
pub fn right(file: &[u8], way: Way) -> Given {
    of_read(Damaged::read(file), way)
}

/// A salvager that reads files of another form as this one.
pub fn reading(file: &[u8], way: Way, form: impl Fn(&[u8]) -> Option<Vec<u8>>) -> Given {
    form(file).map_or_else(|| right(file, way), |other| right(&other, way))
}

/// A salvager that refuses some files besides.
pub fn refusing(file: &[u8], way: Way, is_refused: impl Fn(&Damaged) -> bool) -> Given {
    of_read(Damaged::read(file).filter(|damaged| !is_refused(damaged)), way)
}

/// What some kept events come to.
fn of_kept(damaged: &Damaged, events: Vec<Event>) -> Salvaged {
    let (kept, page_bytes) = (events.len(), damaged.page_bytes.to_vec());
    let (new, dropped) = (Header::of(kept, page_bytes.len()), damaged.events.len().saturating_sub(kept));
    Salvaged {
        recording: Recording { events, page_bytes },
        report: Report { old: damaged.header, new, dropped },
    }
}

/// A salvager that keeps other events.
pub fn keeping(file: &[u8], way: Way, kept: impl Fn(&Damaged) -> Vec<Event>) -> Given {
    match Damaged::read(file) {
        Some(damaged) => shown(&of_kept(&damaged, kept(&damaged)), way),
        None => refused_21(),
    }
}

/// A salvager that keeps a run of another length.
pub fn running(file: &[u8], way: Way, kept: impl Fn(&Damaged) -> usize) -> Given {
    keeping(file, way, |damaged| damaged.events[..kept(damaged).min(damaged.events.len())].to_vec())
}

/// A salvager that takes other events.
pub fn taking(file: &[u8], way: Way, is_taken: impl Fn(&Event, &Damaged) -> bool) -> Given {
    running(file, way, |damaged| damaged.events.iter().take_while(|event| is_taken(event, damaged)).count())
}

/// A salvager that doesn't ask one rule.
pub fn sparing(file: &[u8], way: Way, spared: FileRule) -> Given {
    taking(file, way, |event, damaged| {
        event_rules(event, damaged.page_bytes.len()).iter().all(|rule| *rule == spared)
    })
}

/// A salvager that asks the rules over another number of page bytes.
pub fn over(file: &[u8], way: Way, page_bytes: impl Fn(&Damaged) -> usize) -> Given {
    taking(file, way, |event, damaged| event_rules(event, page_bytes(damaged)).is_empty())
}

/// A salvager that ends the run at some sound events too.
pub fn ending(file: &[u8], way: Way, ends: impl Fn(&Event, &Damaged) -> bool) -> Given {
    taking(file, way, |event, damaged| {
        event_rules(event, damaged.page_bytes.len()).is_empty() && !ends(event, damaged)
    })
}

/// A salvager that changes what is salvaged, in the file and in the report.
pub fn changing(file: &[u8], way: Way, change: impl Fn(&Damaged, &mut Salvaged)) -> Given {
    let Some(damaged) = Damaged::read(file) else { return refused_21() };
    let mut salvaged = damaged.salvaged();
    change(&damaged, &mut salvaged);
    shown(&salvaged, way)
}

/// A salvager that writes another file.
pub fn writing(file: &[u8], way: Way, change: impl Fn(&Damaged, &mut Vec<u8>)) -> Given {
    let mut given = right(file, way);
    if let (Way::File, Some(damaged)) = (way, Damaged::read(file)) {
        change(&damaged, &mut given.output);
    }
    given
}

/// A salvager that puts another header into the new file.
pub fn with_header(file: &[u8], way: Way, change: impl Fn(&Damaged, &mut Header)) -> Given {
    writing(file, way, |damaged, new| {
        let mut header = Header::read(new).expect("a new file has a header");
        change(damaged, &mut header);
        new[..8].copy_from_slice(&header.bytes());
    })
}

/// A salvager that reports something else.
pub fn reporting(file: &[u8], way: Way, change: impl Fn(&Damaged, &mut Report)) -> Given {
    changing(file, way, |damaged, salvaged| change(damaged, &mut salvaged.report))
}

/// A salvager that tells the report in another text.
pub fn telling(file: &[u8], way: Way, tell: impl Fn(&str) -> String) -> Given {
    let given = right(file, way);
    if way == Way::File || !given.errors.is_empty() {
        return given;
    }
    printed(tell(&String::from_utf8_lossy(&given.output)))
}

/// A salvager that refuses in another way.
pub fn refusing_as(file: &[u8], way: Way, refusal: impl Fn() -> Given) -> Given {
    Damaged::read(file).map_or_else(refusal, |damaged| shown(&damaged.salvaged(), way))
}
