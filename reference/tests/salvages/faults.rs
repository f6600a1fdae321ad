//! Salvagers with a fault.

use crate::salvager::{
    changing, ending, keeping, over, reading, refused_21, refusing, refusing_as, reporting, right, running,
    sparing, taking, telling, with_header, writing, written,
};
use crate::written::refused_22;
use reference::comparison::salvages::{Given, Way};
use reference::recording::{answer_bytes, event_rules, events_end, run, Event, FileRule, Header, Recording};
use reference::salvage::{Damaged, Report, Salvaged};
use reference::stream::kind;

/// A name, the salvager of a file, and the longest short recording it may leave; `LONG` where a short one doesn't show it.
pub type Fault = (&'static str, fn(&[u8], Way) -> Given, usize);

/// Recordings in which such a fault shows aren't made short, as they have to be long.
pub const LONG: usize = usize::MAX;

pub const FAULTS: [Fault; 89] = [
    // which events are kept
    ("an-event-after-a-dropped-one-kept", |file, way| keeping(file, way, every_sound_event), 24),
    ("one-wrong-event-skipped", |file, way| keeping(file, way, one_wrong_skipped), 24),
    ("the-longest-run-anywhere", |file, way| keeping(file, way, longest_run_anywhere), 24),
    ("all-or-nothing", |file, way| running(file, way, all_or_nothing), 24),
    ("all-kept", |file, way| running(file, way, |it| it.events.len()), 16),
    ("the-wrong-event-kept", |file, way| running(file, way, |it| it.longest_run() + 1), 16),
    ("one-before-the-wrong-event-dropped", |file, way| running(file, way, one_before_dropped), 24),
    ("first-event-not-looked-at", |file, way| keeping(file, way, first_not_looked_at), 16),
    ("last-event-not-looked-at", |file, way| running(file, way, last_not_looked_at), 16),
    (
        "last-event-never-kept",
        |file, way| running(file, way, |it| it.longest_run().min(it.events.len().saturating_sub(1))),
        16,
    ),
    (
        "the-stored-count-believed",
        |file, way| running(file, way, |it| it.longest_run().min(usize::from(it.header.event_count))),
        16,
    ),
    ("the-stored-count-kept", |file, way| running(file, way, |it| usize::from(it.header.event_count)), 16),
    ("runs-in-a-byte", |file, way| running(file, way, |it| it.longest_run() & 0xFF), 3_000),
    ("runs-to-256", |file, way| running(file, way, |it| it.longest_run().min(256)), 3_000),
    ("event-8190-dropped", |file, way| running(file, way, |it| it.longest_run().min(8_189)), LONG),
    ("events-from-the-stored-first-offset", events_from_the_stored_first_offset, 24),
    ("events-past-the-stored-offset", events_past_the_stored_offset, 16),
    ("refused-calls-end-the-run", |file, way| running(file, way, up_to_a_refused_call), 24),
    // the rules of an event
    ("kind-12-taken", |file, way| kind_taken(file, way, 12), 16),
    ("kind-255-taken", |file, way| kind_taken(file, way, 255), 16),
    ("kind-in-four-bits", kind_in_four_bits, 16),
    ("kind-11-dropped", |file, way| ending(file, way, |event, _| event.kind == kind::READ), 24),
    ("support-flag-2-taken", support_flag_2_taken, 16),
    ("unused-nexus-taken", |file, way| sparing(file, way, FileRule::UnusedNexus), 16),
    ("unused-argument-taken", |file, way| sparing(file, way, FileRule::UnusedArgument), 16),
    ("unused-page-offset-taken", |file, way| sparing(file, way, FileRule::UnusedPageOffset), 16),
    ("unused-page-length-taken", |file, way| sparing(file, way, FileRule::UnusedPageLength), 16),
    ("page-of-in-taken", page_of_in_taken, 24),
    ("nexus-above-15-dropped", |file, way| ending(file, way, |event, _| event.nexus > 15), 16),
    ("place-above-4-dropped", |file, way| ending(file, way, is_place_above_4), 16),
    ("other-page-codes-dropped", |file, way| ending(file, way, is_other_page_code), 16),
    ("empty-pages-dropped", |file, way| ending(file, way, |event, _| is_empty_page(event)), 16),
    // pages
    ("pages-not-looked-at", |file, way| sparing(file, way, FileRule::PagePastEnd), 24),
    ("page-one-byte-past-taken", |file, way| over(file, way, |it| it.page_bytes.len() + 1), 16),
    ("page-at-the-end-dropped", |file, way| ending(file, way, is_page_at_the_end), 24),
    ("empty-page-past-taken", empty_page_past_taken, 16),
    ("page-end-in-16-bits", page_end_in_16_bits, 16),
    ("pages-by-the-stored-total", |file, way| over(file, way, page_bytes_by_total), 32),
    ("pages-by-the-files-length", |file, way| over(file, way, length_of), 24),
    ("pages-by-the-new-offset", pages_by_the_new_offset, 24),
    ("pages-by-their-length-alone", pages_by_length_alone, 24),
    ("pages-of-nexuses-above-15-not-looked-at", pages_above_15_not_looked_at, 16),
    // the new file
    ("page-bytes-by-the-new-offset", page_bytes_by_the_new_offset, 16),
    ("spare-bytes-lost", |file, way| changing(file, way, spare_bytes_lost), 16),
    ("spare-bytes-lost-where-something-is-dropped", spare_bytes_lost_with_dropped, 24),
    ("page-bytes-lost-without-events", page_bytes_lost_without_events, 16),
    ("bytes-after-the-stored-total-lost", bytes_after_the_stored_total_lost, 16),
    ("filled-up-to-the-stored-total", filled_up_to_the_stored_total, 16),
    ("page-bytes-in-eights", |file, way| changing(file, way, page_bytes_in_eights), 16),
    ("page-bytes-to-65526", |file, way| changing(file, way, |_, it| page_bytes_to(it, 65_526)), LONG),
    ("filled-up-to-the-old-length", filled_up_to_the_old_length, 16),
    (
        "stored-count-left",
        |file, way| with_header(file, way, |it, new| new.event_count = it.header.event_count),
        16,
    ),
    (
        "stored-first-event-left",
        |file, way| with_header(file, way, |it, new| new.first_event = it.header.first_event),
        16,
    ),
    (
        "stored-page-offset-left",
        |file, way| with_header(file, way, |it, new| new.page_bytes = it.header.page_bytes),
        16,
    ),
    (
        "the-stored-total-believed",
        |file, way| with_header(file, way, |it, new| new.total = it.header.total),
        16,
    ),
    (
        "total-of-the-old-length",
        |file, way| with_header(file, way, |it, new| new.total = length_of(it) as u16),
        16,
    ),
    ("numbers-little-endian", numbers_little_endian, 16),
    ("sound-files-not-written", sound_files_not_written, 16),
    ("only-4096-bytes-read", |file, way| reading(file, way, |it| it.get(..4_096).map(<[u8]>::to_vec)), LONG),
    // the report
    ("old-values-reported-as-new", |file, way| reporting(file, way, |_, it| it.new = it.old), 16),
    ("new-values-reported-as-old", |file, way| reporting(file, way, |_, it| it.old = it.new), 16),
    (
        "old-and-new-exchanged",
        |file, way| reporting(file, way, |_, it| std::mem::swap(&mut it.old, &mut it.new)),
        16,
    ),
    (
        "old-total-is-the-length",
        |file, way| reporting(file, way, |it, report| report.old.total = length_of(it) as u16),
        16,
    ),
    ("old-count-is-that-of-the-events", old_count_is_that_of_the_events, 16),
    ("dropped-counted-to-the-files-end", |file, way| reporting(file, way, dropped_to_the_end), 24),
    ("dropped-by-the-stored-count", |file, way| reporting(file, way, dropped_by_count), 16),
    ("dropped-by-the-header-numbers", |file, way| reporting(file, way, dropped_by_offsets), 24),
    ("wrong-events-alone-counted", |file, way| reporting(file, way, wrong_events_alone), 24),
    (
        "kept-events-counted",
        |file, way| reporting(file, way, |_, it| it.dropped = usize::from(it.new.event_count)),
        16,
    ),
    (
        "the-wrong-event-not-counted",
        |file, way| reporting(file, way, |_, it| it.dropped = it.dropped.saturating_sub(1)),
        16,
    ),
    ("dropped-in-a-byte", |file, way| reporting(file, way, |_, it| it.dropped &= 0xFF), 3_000),
    ("dropped-to-999", |file, way| reporting(file, way, |_, it| it.dropped = it.dropped.min(999)), LONG),
    ("unchanged-numbers-left-out", |file, way| telling(file, way, unchanged_left_out), 16),
    ("sound-file-without-report", |file, way| telling(file, way, sound_without_report), 16),
    ("lines-in-another-order", |file, way| telling(file, way, lines_turned), 16),
    ("no-final-newline", |file, way| telling(file, way, |text| text.trim_end().to_string()), 16),
    // what can't be salvaged
    ("page-offset-0-taken", |file, way| reading(file, way, |it| with_offset(it, |at| at == 0, |_| 8)), 16),
    (
        "page-offset-rounded",
        |file, way| reading(file, way, |it| with_offset(it, |at| at > 8, |at| at & !7)),
        16,
    ),
    ("page-offset-8-refused", |file, way| refusing(file, way, |it| it.header.page_bytes == 8), 16),
    ("page-offset-of-two-bits-looked-at", page_offset_of_two_bits, 24),
    ("page-offset-at-the-end-refused", |file, way| refusing(file, way, |it| it.page_bytes.is_empty()), 16),
    ("page-offset-past-the-file-taken", page_offset_past_taken, 24),
    ("7-bytes-taken", |file, way| reading(file, way, |it| (it.len() == 7).then(|| [it, &[8]].concat())), 7),
    ("65535-refused", |file, way| refusing(file, way, |it| length_of(it) == 65_535), LONG),
    (
        "65536-taken",
        |file, way| reading(file, way, |it| (it.len() == 65_536).then(|| it[..65_535].to_vec())),
        LONG,
    ),
    ("longer-files-cut", |file, way| reading(file, way, |it| it.get(..65_535).map(<[u8]>::to_vec)), LONG),
    ("no-events-refused", |file, way| refusing(file, way, |it| it.longest_run() == 0), 16),
    ("refusal-with-22", |file, way| refusing_as(file, way, refused_22), 16),
    ("file-written-with-21", file_written_with_21, 16),
];

/// Every event that breaks no rule.
fn every_sound_event(damaged: &Damaged) -> Vec<Event> {
    let is_sound = |event: &&Event| event_rules(event, damaged.page_bytes.len()).is_empty();
    damaged.events.iter().filter(is_sound).copied().collect()
}

/// The run, and the one after the first wrong event.
fn one_wrong_skipped(damaged: &Damaged) -> Vec<Event> {
    let kept = damaged.longest_run();
    let after = damaged.events.get(kept + 1..).unwrap_or_default();
    let is_sound = |event: &&Event| event_rules(event, damaged.page_bytes.len()).is_empty();
    [&damaged.events[..kept], &after.iter().take_while(is_sound).copied().collect::<Vec<_>>()].concat()
}

/// The longest of the runs between wrong events.
fn longest_run_anywhere(damaged: &Damaged) -> Vec<Event> {
    let is_wrong = |event: &Event| !event_rules(event, damaged.page_bytes.len()).is_empty();
    let runs = damaged.events.split(is_wrong);
    runs.rev().max_by_key(|run| run.len()).unwrap_or_default().to_vec()
}

fn all_or_nothing(damaged: &Damaged) -> usize {
    if damaged.longest_run() == damaged.events.len() {
        damaged.events.len()
    } else {
        0
    }
}

/// The event before a wrong one is dropped too.
fn one_before_dropped(damaged: &Damaged) -> usize {
    let kept = damaged.longest_run();
    if kept < damaged.events.len() {
        kept.saturating_sub(1)
    } else {
        kept
    }
}

/// The rules are asked from the second event on.
fn first_not_looked_at(damaged: &Damaged) -> Vec<Event> {
    let Some((first, rest)) = damaged.events.split_first() else { return Vec::new() };
    let rest = Damaged { events: rest.to_vec(), ..damaged.clone() };
    [&[*first], &rest.events[..rest.longest_run()]].concat()
}

/// The rules are asked up to the last event but one.
fn last_not_looked_at(damaged: &Damaged) -> usize {
    let kept = damaged.longest_run();
    if kept + 1 == damaged.events.len() {
        damaged.events.len()
    } else {
        kept
    }
}

/// The first event's stored offset is believed, where it can be.
fn events_from_the_stored_first_offset(file: &[u8], way: Way) -> Given {
    keeping(file, way, |damaged| {
        let Header { first_event, page_bytes, .. } = damaged.header;
        let skipped = usize::from(first_event.clamp(8, page_bytes) - 8) / 8;
        let rest = Damaged { events: damaged.events[skipped..].to_vec(), ..damaged.clone() };
        rest.events[..rest.longest_run()].to_vec()
    })
}

/// The run goes on in the page bytes, which start after it.
fn events_past_the_stored_offset(file: &[u8], way: Way) -> Given {
    reading(file, way, |file| {
        let mut damaged =
            Damaged::read(file).filter(|damaged| damaged.longest_run() == damaged.events.len())?;
        while let Some((bytes, rest)) = damaged.page_bytes.split_first_chunk() {
            damaged.events.push(Event::read(*bytes));
            damaged.page_bytes = rest;
            if damaged.longest_run() < damaged.events.len() {
                return None;
            }
        }
        let end = events_end(damaged.events.len()) as u16;
        with_offset(file, |_| true, |_| end)
    })
}

/// The run ends before a call that is refused.
fn up_to_a_refused_call(damaged: &Damaged) -> usize {
    let Salvaged { recording, .. } = damaged.salvaged();
    let mut numbers = Vec::new();
    run(&recording, |moment| numbers.push(answer_bytes(moment.reply)[0]));
    numbers.iter().take_while(|number| **number == 0).count()
}

/// One kind more is known.
fn kind_taken(file: &[u8], way: Way, kind: u8) -> Given {
    taking(file, way, |event, damaged| {
        event.kind == kind || event_rules(event, damaged.page_bytes.len()).is_empty()
    })
}

/// The kind's high bits aren't looked at.
fn kind_in_four_bits(file: &[u8], way: Way) -> Given {
    taking(file, way, |event, damaged| {
        event_rules(&Event { kind: event.kind & 15, ..*event }, damaged.page_bytes.len()).is_empty()
    })
}

/// A support flag of 2 isn't wrong.
fn support_flag_2_taken(file: &[u8], way: Way) -> Given {
    taking(file, way, |event, damaged| {
        let is_flag_2 = event.kind == kind::WRITE && event.argument == 2;
        let event = if is_flag_2 { Event { argument: 1, ..*event } } else { *event };
        event_rules(&event, damaged.page_bytes.len()).is_empty()
    })
}

/// IN may have a page.
fn page_of_in_taken(file: &[u8], way: Way) -> Given {
    taking(file, way, |event, damaged| {
        let kind = if event.kind == kind::IN { kind::OUT } else { event.kind };
        event_rules(&Event { kind, ..*event }, damaged.page_bytes.len()).is_empty()
    })
}

fn is_place_above_4(event: &Event, _: &Damaged) -> bool {
    event.kind == kind::VENDOR_RELEASE && event.argument > 4
}

fn is_other_page_code(event: &Event, _: &Damaged) -> bool {
    event.kind == kind::OUT && event.argument != 0x0010
}

fn is_empty_page(event: &Event) -> bool {
    event.kind == kind::OUT && event.page_length == 0
}

/// Where an event's page ends.
fn page_end(event: &Event) -> usize {
    usize::from(event.page_offset) + usize::from(event.page_length)
}

fn is_page_at_the_end(event: &Event, damaged: &Damaged) -> bool {
    event.kind == kind::OUT && event.page_length > 0 && page_end(event) == damaged.page_bytes.len()
}

/// A page of no bytes may stand anywhere.
fn empty_page_past_taken(file: &[u8], way: Way) -> Given {
    taking(file, way, |event, damaged| {
        is_empty_page(event) || event_rules(event, damaged.page_bytes.len()).is_empty()
    })
}

/// Offset plus length is a number of 16 bits.
fn page_end_in_16_bits(file: &[u8], way: Way) -> Given {
    taking(file, way, |event, damaged| {
        let wraps = event.kind == kind::OUT && page_end(event) > 0xFFFF;
        let within = page_end(event) & 0xFFFF <= damaged.page_bytes.len();
        wraps && within || event_rules(event, damaged.page_bytes.len()).is_empty()
    })
}

/// The length of a file that is salvaged.
fn length_of(damaged: &Damaged) -> usize {
    usize::from(damaged.header.page_bytes) + damaged.page_bytes.len()
}

/// The page bytes that there would be by the stored total.
fn page_bytes_by_total(damaged: &Damaged) -> usize {
    usize::from(damaged.header.total).saturating_sub(usize::from(damaged.header.page_bytes))
}

/// A page may end in the bytes of the events that are dropped.
fn pages_by_the_new_offset(file: &[u8], way: Way) -> Given {
    running(file, way, |damaged| {
        let events = damaged.events.iter().enumerate();
        let left = |at: usize| (damaged.events.len() - at - 1) * 8 + damaged.page_bytes.len();
        events.take_while(|(at, event)| event_rules(event, left(*at)).is_empty()).count()
    })
}

/// Page offsets aren't looked at.
fn pages_by_length_alone(file: &[u8], way: Way) -> Given {
    taking(file, way, |event, damaged| {
        let page_offset = if event.kind == kind::OUT { 0 } else { event.page_offset };
        event_rules(&Event { page_offset, ..*event }, damaged.page_bytes.len()).is_empty()
    })
}

/// What a call would refuse anyway needn't have its page.
fn pages_above_15_not_looked_at(file: &[u8], way: Way) -> Given {
    taking(file, way, |event, damaged| {
        event.kind == kind::OUT && event.nexus > 15 || event_rules(event, damaged.page_bytes.len()).is_empty()
    })
}

/// The bytes of dropped events become page bytes.
fn page_bytes_by_the_new_offset(file: &[u8], way: Way) -> Given {
    changing(file, way, |damaged, salvaged| {
        let dropped: Vec<u8> =
            damaged.events[salvaged.recording.events.len()..].iter().flat_map(Event::bytes).collect();
        salvaged.recording.page_bytes.splice(..0, dropped);
        salvaged.report.new = header_of(&salvaged.recording);
    })
}

/// The header of a recording.
fn header_of(recording: &Recording) -> Header {
    Header::of(recording.events.len(), recording.page_bytes.len())
}

/// Page bytes are cut.
fn page_bytes_to(salvaged: &mut Salvaged, length: usize) {
    salvaged.recording.page_bytes.truncate(length);
    salvaged.report.new = header_of(&salvaged.recording);
}

/// Page bytes end with the last page that is kept.
fn spare_bytes_lost(_: &Damaged, salvaged: &mut Salvaged) {
    let outs = salvaged.recording.events.iter().filter(|event| event.kind == kind::OUT);
    let end = outs.map(page_end).max().unwrap_or(0);
    page_bytes_to(salvaged, end);
}

/// The same where the file isn't sound.
fn spare_bytes_lost_with_dropped(file: &[u8], way: Way) -> Given {
    changing(file, way, |damaged, salvaged| {
        if salvaged.report.dropped > 0 {
            spare_bytes_lost(damaged, salvaged);
        }
    })
}

fn page_bytes_lost_without_events(file: &[u8], way: Way) -> Given {
    changing(file, way, |_, salvaged| {
        if salvaged.recording.events.is_empty() {
            page_bytes_to(salvaged, 0);
        }
    })
}

fn bytes_after_the_stored_total_lost(file: &[u8], way: Way) -> Given {
    changing(file, way, |damaged, salvaged| page_bytes_to(salvaged, page_bytes_by_total(damaged)))
}

/// The page bytes that the stored total tells of besides are zeros.
fn filled_up_to_the_stored_total(file: &[u8], way: Way) -> Given {
    changing(file, way, |damaged, salvaged| {
        let length = page_bytes_by_total(damaged).max(damaged.page_bytes.len());
        salvaged.recording.page_bytes.resize(length, 0);
        salvaged.report.new = header_of(&salvaged.recording);
    })
}

fn page_bytes_in_eights(_: &Damaged, salvaged: &mut Salvaged) {
    page_bytes_to(salvaged, salvaged.recording.page_bytes.len() & !7);
}

/// The new file is as long as the old one.
fn filled_up_to_the_old_length(file: &[u8], way: Way) -> Given {
    writing(file, way, |damaged, new| new.resize(length_of(damaged), 0))
}

fn numbers_little_endian(file: &[u8], way: Way) -> Given {
    writing(file, way, |_, new| new[..8].chunks_exact_mut(2).for_each(|number| number.reverse()))
}

/// Where nothing is changed, nothing is written.
fn sound_files_not_written(file: &[u8], way: Way) -> Given {
    let given = right(file, way);
    if given.output == file {
        written(Vec::new())
    } else {
        given
    }
}

fn old_count_is_that_of_the_events(file: &[u8], way: Way) -> Given {
    reporting(file, way, |damaged, report| report.old.event_count = damaged.events.len() as u16)
}

/// Page bytes are taken for events.
fn dropped_to_the_end(damaged: &Damaged, report: &mut Report) {
    report.dropped = (length_of(damaged) - 8) / 8 - usize::from(report.new.event_count);
}

/// The stored count less the kept events.
fn dropped_by_count(_: &Damaged, report: &mut Report) {
    report.dropped = usize::from(report.old.event_count.saturating_sub(report.new.event_count));
}

/// The events that a total of the new file is short of.
fn dropped_by_offsets(_: &Damaged, report: &mut Report) {
    report.dropped = usize::from(report.old.total.saturating_sub(report.new.total)) / 8;
}

/// Sound events that are dropped aren't counted.
fn wrong_events_alone(damaged: &Damaged, report: &mut Report) {
    let is_wrong = |event: &&Event| !event_rules(event, damaged.page_bytes.len()).is_empty();
    report.dropped = damaged.events.iter().filter(is_wrong).count();
}

/// A report without the lines that say nothing.
fn unchanged_left_out(text: &str) -> String {
    let says = |line: &&str| match line.rsplit_once(" -> ") {
        Some((old, new)) => old.rsplit(' ').next() != Some(new),
        None => true,
    };
    text.lines().filter(says).map(|line| format!("{line}\n")).collect()
}

fn sound_without_report(text: &str) -> String {
    if unchanged_left_out(text) == "dropped 0\n" {
        String::new()
    } else {
        text.to_string()
    }
}

/// Dropped first.
fn lines_turned(text: &str) -> String {
    let mut lines: Vec<String> = text.lines().map(|line| format!("{line}\n")).collect();
    lines.rotate_right(1);
    lines.concat()
}

/// The file with another page offset, where its own is such a one.
fn with_offset(file: &[u8], is_other: impl Fn(u16) -> bool, other: impl Fn(u16) -> u16) -> Option<Vec<u8>> {
    let mut header = Header::read(file).filter(|header| is_other(header.page_bytes))?;
    header.page_bytes = other(header.page_bytes);
    Some([&header.bytes()[..], &file[8..]].concat())
}

/// An offset that is 4 plus a multiple of 8 is rounded.
fn page_offset_of_two_bits(file: &[u8], way: Way) -> Given {
    reading(file, way, |file| with_offset(file, |at| at & 7 == 4 && at > 8, |at| at - 4))
}

/// An offset past the file is that of the last whole event.
fn page_offset_past_taken(file: &[u8], way: Way) -> Given {
    let length = file.len();
    reading(file, way, |file| {
        with_offset(file, |at| usize::from(at) > length && at % 8 == 0, |_| length as u16 & !7)
    })
}

/// What comes of the file by its low bits is written beside the refusal.
fn file_written_with_21(file: &[u8], way: Way) -> Given {
    let Given { errors, .. } = refused_21();
    let given = right(file, way);
    if given.output.is_empty() {
        Given { output: file.to_vec(), errors }
    } else {
        given
    }
}
