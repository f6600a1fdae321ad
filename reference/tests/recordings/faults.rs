//! Replayers with a fault.

use crate::files::{
    empty_page_past_taken, has_unused_page_bytes, is_block_kind_3, is_empty_page, is_other_page_code,
    is_place_above_4, kind_taken, length_in_16_bits, offsets_in_16_bits, overlap, page_end_in_16_bits,
    page_of_in_taken, page_one_byte_past_taken, part_event_taken, support_flag_2_taken,
};
use crate::replayer::{
    drive_with, play, played, refused, refused_but, refusing, refusing_event, shown, sparing, state_path,
    taken,
};
use reference::comparison::recordings::Given;
use reference::record::Record;
use reference::record_bytes;
use reference::recording::{
    answer_bytes, broken_rules, event_rules, parts, Event, FileRule, Header, Recording,
};
use reference::stream::{kind, Command, Drive};

/// A name, the replayer (of a file, for the record or for the answers), and the longest short recording it may leave;
/// `LONG` where a short one doesn't show it.
pub type Fault = (&'static str, fn(&[u8], bool) -> Given, usize);

/// Recordings in which such a fault shows aren't made short, as nothing can be taken away.
pub const LONG: usize = usize::MAX;

pub const FAULTS: [Fault; 42] = [
    ("answers-over-the-next-record", answers_over_the_next_record, 80),
    ("good-part-replayed", good_part_replayed, 24),
    ("pages-from-the-files-start", pages_from_the_files_start, 40),
    ("sense-left-out", sense_left_out, 16),
    ("an-event-skipped", an_event_skipped, 40),
    ("event-8190-skipped", event_8190_skipped, LONG),
    ("kind-12-taken", |file, record| shown(kind_taken(file, 12), record), 16),
    ("kind-255-taken", |file, record| shown(kind_taken(file, 255), record), 16),
    ("unused-nexus-taken", |file, record| shown(sparing(file, &[FileRule::UnusedNexus]), record), 16),
    ("unused-argument-taken", |file, record| shown(sparing(file, &[FileRule::UnusedArgument]), record), 16),
    (
        "unused-page-offset-taken",
        |file, record| shown(sparing(file, &[FileRule::UnusedPageOffset]), record),
        16,
    ),
    (
        "unused-page-length-taken",
        |file, record| shown(sparing(file, &[FileRule::UnusedPageLength]), record),
        16,
    ),
    ("page-of-in-taken", |file, record| shown(page_of_in_taken(file), record), 24),
    ("support-flag-2-taken", |file, record| shown(support_flag_2_taken(file), record), 16),
    ("page-one-byte-past-taken", |file, record| shown(page_one_byte_past_taken(file), record), 16),
    ("empty-page-past-taken", |file, record| shown(empty_page_past_taken(file), record), 16),
    ("page-end-in-16-bits", |file, record| shown(page_end_in_16_bits(file), record), 16),
    ("lying-total-taken", |file, record| shown(sparing(file, &[FileRule::Total]), record), 8),
    ("first-offset-not-looked-at", |file, record| shown(sparing(file, &[FileRule::FirstEvent]), record), 8),
    (
        "page-bytes-offset-not-looked-at",
        |file, record| shown(sparing(file, &[FileRule::PageBytesStart]), record),
        8,
    ),
    ("offsets-in-16-bits", |file, record| shown(offsets_in_16_bits(file), record), 8),
    ("length-in-16-bits", |file, record| shown(length_in_16_bits(file), record), LONG),
    ("part-event-taken", |file, record| shown(part_event_taken(file), record), 24),
    ("goes-on-from-the-record-before", goes_on_from_the_record_before, 100),
    ("power-on-in-the-middle-ignored", power_on_in_the_middle_ignored, 60),
    ("no-events-refused", |file, record| shown(refusing(file, |it| it.events.is_empty()), record), 8),
    ("overlapping-pages-refused", |file, record| shown(refusing(file, overlap), record), 60),
    ("unused-page-bytes-refused", |file, record| shown(refusing(file, has_unused_page_bytes), record), 20),
    ("empty-page-refused", |file, record| shown(refusing_event(file, is_empty_page), record), 16),
    ("nexus-above-15-refused", |file, record| shown(refusing_event(file, |it| it.nexus > 15), record), 16),
    ("place-above-4-refused", |file, record| shown(refusing_event(file, is_place_above_4), record), 16),
    ("page-code-refused", |file, record| shown(refusing_event(file, is_other_page_code), record), 16),
    ("block-kind-3-refused", |file, record| shown(refusing_event(file, is_block_kind_3), record), 16),
    ("largest-refused", |file, record| shown(refusing(file, |it| it.bytes().len() == 65_535), record), LONG),
    ("buffer-written-on-refusal", buffer_written_on_refusal, 40),
    ("record-of-refused-not-power-ons", record_of_refused_not_power_ons, 24),
    ("refusal-without-number", |file, record| refusal_as(file, record, b"the recording is refused\n"), 8),
    ("refusal-with-21", |file, record| refusal_as(file, record, b"21 the recording is refused\n"), 8),
    ("record-of-power-on-always", record_of_power_on_always, 100),
    ("little-endian-arguments", little_endian_arguments, 16),
    ("another-protocol", another_protocol, 16),
    ("answers-cut-at-4096", answers_cut_at_4096, 16_384),
];

/// Each event is answered over the record that the next one leaves: events run in swapped pairs.
fn answers_over_the_next_record(file: &[u8], record: bool) -> Given {
    let Some(recording) = Recording::read(file) else { return refused() };
    let mut drive = Drive::new();
    let mut answers = Vec::new();
    for pair in recording.events.chunks(2) {
        let turned = pair.iter().rev().map(|event| answer_bytes(&drive.answer(&recording.command(event))));
        let turned: Vec<_> = turned.collect();
        answers.extend(turned.into_iter().rev().flatten());
    }
    taken((answers, drive.controller().record.clone()), record)
}

/// The events before the first wrong one.
fn good_part(file: &[u8]) -> Option<Recording> {
    let (events, page_bytes) = parts(&Header::read(file)?, file)?;
    let good = events.into_iter().take_while(|event| event_rules(event, page_bytes.len()).is_empty());
    Some(Recording { events: good.collect(), page_bytes: page_bytes.to_vec() })
}

/// A wrong event ends the replay in place of refusing the file.
fn good_part_replayed(file: &[u8], record: bool) -> Given {
    let header_is_right = !broken_rules(file).iter().any(|rule| *rule < FileRule::Kind);
    shown(good_part(file).filter(|_| header_is_right), record)
}

/// Page offsets count from the file's start.
fn pages_from_the_files_start(file: &[u8], record: bool) -> Given {
    let Some(recording) = Recording::read(file) else { return refused() };
    let whole = Recording { page_bytes: file.to_vec(), ..recording };
    taken(play(&whole), record)
}

/// Answers have their number only.
fn sense_left_out(file: &[u8], record: bool) -> Given {
    let Some(recording) = Recording::read(file) else { return refused() };
    let call = |_, event: &Event| Some(recording.command(event));
    taken(played(&recording, call, |reply| reply.sense = [0; 3]), record)
}

/// Skips the events that a rule names, which are answered with zeros.
fn skipping(file: &[u8], record: bool, skipped: impl Fn(usize, &Event) -> bool) -> Given {
    let Some(recording) = Recording::read(file) else { return refused() };
    let call = |number, event: &Event| (!skipped(number, event)).then(|| recording.command(event));
    taken(played(&recording, call, |_| {}), record)
}

/// The third event is skipped.
fn an_event_skipped(file: &[u8], record: bool) -> Given {
    skipping(file, record, |number, _| number == 2)
}

/// The last event of the largest recording is skipped.
fn event_8190_skipped(file: &[u8], record: bool) -> Given {
    skipping(file, record, |number, _| number == 8189)
}

/// Power-on is taken at the start only.
fn power_on_in_the_middle_ignored(file: &[u8], record: bool) -> Given {
    skipping(file, record, |number, event| number > 0 && event.kind == kind::POWER_ON)
}

/// The replay starts from the record of the one before.
fn goes_on_from_the_record_before(file: &[u8], wants_record: bool) -> Given {
    let Some(recording) = Recording::read(file) else { return refused() };
    let before = std::fs::read(state_path()).ok().and_then(|bytes| record_bytes::load(&bytes));
    let mut drive = drive_with(&before.unwrap_or(Record::power_on()));
    let answer = |event: &Event| answer_bytes(&drive.answer(&recording.command(event)));
    let answers: Vec<u8> = recording.events.iter().flat_map(answer).collect();
    let record = drive.controller().record.clone();
    std::fs::write(state_path(), record_bytes::give(&record)).expect("the record is kept");
    taken((answers, record), wants_record)
}

/// On refusal, bytes of A5h for the answers.
fn buffer_written_on_refusal(file: &[u8], record: bool) -> Given {
    match (Recording::read(file), Header::read(file)) {
        (None, Some(header)) if !record => refused_but(vec![0xA5; 4 * usize::from(header.event_count)]),
        (recording, _) => shown(recording, record),
    }
}

/// On refusal, the record that the good part leaves.
fn record_of_refused_not_power_ons(file: &[u8], record: bool) -> Given {
    match (Recording::read(file), good_part(file)) {
        (None, Some(good)) if record => refused_but(taken(play(&good), true).output),
        (recording, _) => shown(recording, record),
    }
}

/// Another line on standard error.
fn refusal_as(file: &[u8], record: bool, line: &[u8]) -> Given {
    match Recording::read(file) {
        None => Given { output: Vec::new(), errors: line.to_vec() },
        recording => shown(recording, record),
    }
}

/// The record is power-on's, whatever the events gave.
fn record_of_power_on_always(file: &[u8], record: bool) -> Given {
    match Recording::read(file) {
        Some(recording) => taken((play(&recording).0, Record::power_on()), record),
        None => refused(),
    }
}

/// A replay with each call changed.
fn with_calls(file: &[u8], record: bool, change: fn(Command) -> Command) -> Given {
    let Some(recording) = Recording::read(file) else { return refused() };
    taken(played(&recording, |_, event| Some(change(recording.command(event))), |_| {}), record)
}

/// Arguments are read with their bytes exchanged.
fn little_endian_arguments(file: &[u8], record: bool) -> Given {
    with_calls(file, record, |command| Command { argument: command.argument.swap_bytes(), ..command })
}

/// IN and OUT events use protocol 21h.
fn another_protocol(file: &[u8], record: bool) -> Given {
    with_calls(file, record, |command| Command { protocol: 0x21, ..command })
}

/// The answers are written from a buffer that is too small.
fn answers_cut_at_4096(file: &[u8], record: bool) -> Given {
    let Some(recording) = Recording::read(file) else { return refused() };
    let (mut answers, end) = play(&recording);
    answers.truncate(4096);
    taken((answers, end), record)
}
