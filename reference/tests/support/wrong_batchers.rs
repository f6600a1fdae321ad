//! Drives that are wrong about batches of events (02, request 5); the directed sessions are to find them.

use crate::{Fault, Moment};
use reference::answer::NO_SENSE;
use reference::codes::PROTOCOL;
use reference::record::Record;
use reference::recording::{answer_bytes, Batch, BatchRule, BrokenByBatch, Event, FileRule, Recording};
use reference::recording::{ANSWER_BYTES, BATCH_EVENTS};
use reference::response_pages;
use reference::stream::{kind, Command, Drive, Reply, LENT_FILL, LENT_LIMIT};
use reference::well_formed::is_well_formed;

pub const BATCH_FAULTS: [Fault; 33] = [
    ("22-before-18", twenty_two_before_eighteen, 2),
    ("65-events-taken", sixty_five_events_taken, 2),
    ("64-events-refused", sixty_four_events_refused, 2),
    ("one-byte-too-little-taken", one_byte_too_little_taken, 2),
    ("a-byte-more-asked-for", a_byte_more_asked_for, 2),
    ("part-event-ignored", part_event_ignored, 2),
    ("part-event-counted-for-18", part_event_counted_for_18, 2),
    ("room-asked-for-part-event", room_asked_for_part_event, 2),
    ("part-event-goes-on-in-page-bytes", part_event_goes_on_in_page_bytes, 2),
    ("good-part-run", good_part_run, 2),
    ("wrong-event-answered-in-its-turn", wrong_event_answered_in_its_turn, 2),
    ("support-flag-2-taken", |moment| sparing(moment, FileRule::SupportFlag), 2),
    ("unused-page-length-taken", |moment| sparing(moment, FileRule::UnusedPageLength), 2),
    ("page-one-byte-past-taken", page_one_byte_past_taken, 2),
    ("buffer-filled-before-refusal", buffer_filled_before_refusal, 2),
    ("refusal-without-buffer", refusal_without_buffer, 2),
    ("buffer-cleared-beyond", buffer_cleared_beyond, 2),
    ("sense-left-out", sense_left_out, 2),
    ("answers-of-done-events-alone", answers_of_done_events_alone, 2),
    ("stops-at-first-refused-event", stops_at_first_refused_event, 2),
    ("first-refusal-is-the-verdict", first_refusal_is_the_verdict, 2),
    ("refused-event-undone", refused_event_undone, 2),
    ("each-event-from-the-starting-record", each_event_from_the_starting_record, 2),
    ("event-64-not-run", event_64_not_run, 2),
    ("check-1-of-the-first-event-alone", check_1_of_the_first_event_alone, 2),
    ("power-on-inside-does-not-mend", power_on_inside_does_not_mend, 2),
    ("empty-batch-answers-1", empty_batch_answers_1, 2),
    ("pages-from-the-events-start", pages_from_the_events_start, 2),
    ("pages-from-e", pages_from_e, 2),
    ("in-gives-its-page", in_gives_its_page, 2),
    ("protocol-of-the-command", protocol_of_the_command, 2),
    ("buffer-above-the-limit-cut", buffer_above_the_limit_cut, 2),
    ("events-past-the-data-cut", events_past_the_data_cut, 2),
];

/// A batch that is no unknown command: its whole events and page bytes, and the rules that it breaks.
struct Sent {
    recording: Recording,
    broken: Vec<BrokenByBatch>,
    room: usize,
}

impl Sent {
    /// The batch at hand.
    fn at_hand(moment: &Moment) -> Option<Sent> {
        let command = moment.command;
        let room = usize::from(command.argument);
        let batch = command.batch().filter(|_| command.kind == kind::BATCH && room <= LENT_LIMIT)?;
        Some(Sent { recording: batch.recording(), broken: batch.broken(room), room })
    }

    /// The batch at hand, if it is taken.
    fn taken(moment: &Moment) -> Option<Sent> {
        Sent::at_hand(moment).filter(|sent| sent.broken.is_empty())
    }

    /// The batch at hand, if it breaks this rule, and how often it does so doesn't matter.
    fn breaking_only(moment: &Moment, rule: BatchRule) -> Option<Sent> {
        let only = |sent: &Sent| sent.breaks(rule) && sent.broken.iter().all(|broken| broken.rule == rule);
        Sent::at_hand(moment).filter(only)
    }

    fn breaks(&self, rule: BatchRule) -> bool {
        self.broken.iter().any(|broken| broken.rule == rule)
    }

    fn events(&self) -> usize {
        self.recording.events.len()
    }
}

/// Four bytes of answer for each event.
type Answers = Vec<[u8; ANSWER_BYTES]>;

/// Runs calls from a record.
fn run(record: &Record, commands: impl Iterator<Item = Command>) -> (Answers, Record) {
    let mut drive = Drive::with(record.clone());
    let answers = commands.map(|command| answer_bytes(&drive.answer(&command))).collect();
    (answers, drive.controller().record.clone())
}

/// Runs the events of a recording from a record.
fn run_events(record: &Record, recording: &Recording) -> (Answers, Record) {
    run(record, recording.events.iter().map(|event| recording.command(event)))
}

/// The batch is taken: the buffer has these answers, as many bytes as it holds, and the record becomes this.
fn take(moment: &mut Moment, (answers, record): (Answers, Record)) {
    let mut lent = vec![LENT_FILL; usize::from(moment.command.argument).min(LENT_LIMIT)];
    lent.iter_mut().zip(answers.concat()).for_each(|(byte, answer)| *byte = answer);
    *moment.reply = Reply { number: 0, sense: NO_SENSE, data: lent };
    *moment.after = record;
}

/// The batch is taken with these events.
fn take_events(moment: &mut Moment, recording: &Recording) {
    take(moment, run_events(moment.before, recording));
}

/// The batch is refused; the buffer and the record stay.
fn refuse(moment: &mut Moment, number: u8) {
    let lent = vec![LENT_FILL; usize::from(moment.command.argument)];
    *moment.reply = Reply { number, sense: NO_SENSE, data: lent };
    *moment.after = moment.before.clone();
}

/// What is wrong with the events is looked at before their count and the room.
fn twenty_two_before_eighteen(moment: &mut Moment) {
    let wrong = |broken: &BrokenByBatch| broken.rule >= BatchRule::PartEvent;
    if Sent::at_hand(moment).is_some_and(|sent| sent.broken.iter().any(wrong)) {
        refuse(moment, 22);
    }
}

/// A batch may have 65 events.
fn sixty_five_events_taken(moment: &mut Moment) {
    let Some(sent) = Sent::breaking_only(moment, BatchRule::MoreThan64Events) else { return };
    if sent.events() == BATCH_EVENTS + 1 {
        take_events(moment, &sent.recording);
    }
}

/// A batch has fewer than 64 events.
fn sixty_four_events_refused(moment: &mut Moment) {
    if Sent::at_hand(moment).is_some_and(|sent| sent.events() == BATCH_EVENTS) {
        refuse(moment, 18);
    }
}

/// The buffer may be a byte too short; the last answer is cut.
fn one_byte_too_little_taken(moment: &mut Moment) {
    let Some(sent) = Sent::breaking_only(moment, BatchRule::BufferTooShort) else { return };
    if sent.room + 1 == sent.events() * ANSWER_BYTES {
        take_events(moment, &sent.recording);
    }
}

/// The buffer has to be longer than the answers.
fn a_byte_more_asked_for(moment: &mut Moment) {
    if Sent::taken(moment).is_some_and(|sent| sent.events() > 0 && sent.room == sent.events() * ANSWER_BYTES)
    {
        refuse(moment, 18);
    }
}

/// Bytes after the last whole event aren't looked at.
fn part_event_ignored(moment: &mut Moment) {
    if let Some(sent) = Sent::breaking_only(moment, BatchRule::PartEvent) {
        take_events(moment, &sent.recording);
    }
}

/// 64 events and a part event are more than 64 events.
fn part_event_counted_for_18(moment: &mut Moment) {
    let part = Sent::at_hand(moment).filter(|sent| sent.breaks(BatchRule::PartEvent));
    if part.is_some_and(|sent| sent.events() == BATCH_EVENTS) {
        refuse(moment, 18);
    }
}

/// A part event's answer has to have room too.
fn room_asked_for_part_event(moment: &mut Moment) {
    let part = Sent::at_hand(moment).filter(|sent| sent.breaks(BatchRule::PartEvent));
    if part.is_some_and(|sent| sent.room < (sent.events() + 1) * ANSWER_BYTES) {
        refuse(moment, 18);
    }
}

/// A part event takes the bytes that it lacks from the page bytes.
fn part_event_goes_on_in_page_bytes(moment: &mut Moment) {
    let Some(Batch { events, page_bytes }) = moment.command.batch() else { return };
    let lacking = events.len().next_multiple_of(8) - events.len();
    let Some(rest) = page_bytes.get(..lacking).filter(|_| lacking > 0) else { return };
    let events = [events, rest].concat();
    let batch = Batch { events: &events, page_bytes: &page_bytes[lacking..] };
    if Sent::at_hand(moment).is_some_and(|sent| batch.broken(sent.room).is_empty()) {
        take_events(moment, &batch.recording());
    }
}

/// The events before a wrong one run.
fn good_part_run(moment: &mut Moment) {
    let Some(sent) = Sent::at_hand(moment) else { return };
    let good = sent.broken.first().and_then(|broken| broken.position);
    if let (Some(good), 22) = (good, moment.reply.number) {
        let mut recording = sent.recording;
        recording.events.truncate(good);
        *moment.after = run_events(moment.before, &recording).1;
    }
}

/// A wrong event is answered 22 by itself, and the others run.
fn wrong_event_answered_in_its_turn(moment: &mut Moment) {
    let Some(sent) = Sent::at_hand(moment).filter(|_| moment.reply.number == 22) else { return };
    if sent.breaks(BatchRule::PartEvent) {
        return;
    }
    let is_wrong = |at: usize| sent.broken.iter().any(|broken| broken.position == Some(at));
    let mut drive = Drive::with(moment.before.clone());
    let mut answer = |(at, event): (usize, &Event)| match is_wrong(at) {
        true => [22, 0, 0, 0],
        false => answer_bytes(&drive.answer(&sent.recording.command(event))),
    };
    let answers = sent.recording.events.iter().enumerate().map(&mut answer).collect();
    take(moment, (answers, drive.controller().record.clone()));
}

/// A rule of events isn't asked; what such an event has too much is left out.
fn sparing(moment: &mut Moment, rule: FileRule) {
    let Some(sent) = Sent::breaking_only(moment, BatchRule::OfEvent(rule)) else { return };
    let mut recording = sent.recording;
    for BrokenByBatch { position, .. } in sent.broken {
        let event = &mut recording.events[position.expect("an event breaks it")];
        match rule {
            FileRule::SupportFlag => event.argument = 1,
            _ => event.page_length = 0,
        }
    }
    take_events(moment, &recording);
}

/// A page may end one byte past the page bytes.
fn page_one_byte_past_taken(moment: &mut Moment) {
    let Some(Batch { events, page_bytes }) = moment.command.batch() else { return };
    let page_bytes = [page_bytes, &[0]].concat();
    let batch = Batch { events, page_bytes: &page_bytes };
    if Sent::at_hand(moment).is_some_and(|sent| batch.broken(sent.room).is_empty()) {
        take_events(moment, &batch.recording());
    }
}

/// The buffer is filled with zeros before anything is looked at.
fn buffer_filled_before_refusal(moment: &mut Moment) {
    if matches!(moment.reply.number, 18 | 22) {
        moment.reply.data.fill(0);
    }
}

/// A refused batch gives no buffer.
fn refusal_without_buffer(moment: &mut Moment) {
    if matches!(moment.reply.number, 18 | 22) {
        moment.reply.data.clear();
    }
}

/// Bytes beyond the answers are zeroed.
fn buffer_cleared_beyond(moment: &mut Moment) {
    if let Some(sent) = Sent::taken(moment) {
        moment.reply.data[sent.events() * ANSWER_BYTES..].fill(0);
    }
}

/// Answers have their number only.
fn sense_left_out(moment: &mut Moment) {
    let Some(sent) = Sent::taken(moment) else { return };
    let answers = &mut moment.reply.data[..sent.events() * ANSWER_BYTES];
    answers.chunks_exact_mut(ANSWER_BYTES).for_each(|answer| answer[1..].fill(0));
}

/// Refused events have no answer: the next one's stands in its place.
fn answers_of_done_events_alone(moment: &mut Moment) {
    let Some(sent) = Sent::taken(moment) else { return };
    let (answers, record) = run_events(moment.before, &sent.recording);
    take(moment, (answers.into_iter().filter(|answer| answer[0] == 0).collect(), record));
}

/// The events after a refused one don't run.
fn stops_at_first_refused_event(moment: &mut Moment) {
    let Some(mut sent) = Sent::taken(moment) else { return };
    let (answers, _) = run_events(moment.before, &sent.recording);
    if let Some(refused) = answers.iter().position(|answer| answer[0] != 0) {
        sent.recording.events.truncate(refused + 1);
        take_events(moment, &sent.recording);
    }
}

/// The batch is answered as its first refused event.
fn first_refusal_is_the_verdict(moment: &mut Moment) {
    let Some(sent) = Sent::taken(moment) else { return };
    let (answers, _) = run_events(moment.before, &sent.recording);
    if let Some([number, sense @ ..]) = answers.into_iter().find(|answer| answer[0] != 0) {
        (moment.reply.number, moment.reply.sense) = (number, sense);
    }
}

/// Runs the events one by one, each from the record that `next` makes of the one before it and the one after it.
fn run_by(moment: &mut Moment, next: impl Fn(&Record, &[u8; ANSWER_BYTES], Record) -> Record) {
    let Some(sent) = Sent::taken(moment) else { return };
    let mut record = moment.before.clone();
    let mut answers = Vec::new();
    for event in &sent.recording.events {
        let (answer, after) = run(&record, std::iter::once(sent.recording.command(event)));
        record = next(&record, &answer[0], after);
        answers.extend(answer);
    }
    take(moment, (answers, record));
}

/// A refused event leaves the record as it was: nobody is registered, no flag is cleared.
fn refused_event_undone(moment: &mut Moment) {
    run_by(moment, |before, answer, after| if answer[0] == 0 { after } else { before.clone() });
}

/// Every event meets the record that the batch started from.
fn each_event_from_the_starting_record(moment: &mut Moment) {
    let start = moment.before;
    let Some(sent) = Sent::taken(moment).filter(|sent| sent.events() > 0) else { return };
    let runs = sent.recording.events.iter().map(|event| {
        let (answer, record) = run(start, std::iter::once(sent.recording.command(event)));
        (answer[0], record)
    });
    let (answers, records): (Answers, Vec<Record>) = runs.unzip();
    let last = records.into_iter().next_back().expect("there are events");
    take(moment, (answers, last));
}

/// The last of 64 events isn't run, though it is answered 0.
fn event_64_not_run(moment: &mut Moment) {
    let Some(mut sent) = Sent::taken(moment).filter(|sent| sent.events() == BATCH_EVENTS) else { return };
    sent.recording.events.truncate(BATCH_EVENTS - 1);
    let (mut answers, record) = run_events(moment.before, &sent.recording);
    answers.push([0; ANSWER_BYTES]);
    take(moment, (answers, record));
}

/// Only the first event finds the record not well formed; the others are answered as from power-on.
fn check_1_of_the_first_event_alone(moment: &mut Moment) {
    let Some(sent) = Sent::taken(moment).filter(|sent| sent.events() > 1) else { return };
    if !is_well_formed(moment.before) {
        let (mut answers, _) = run_events(&Record::power_on(), &sent.recording);
        answers[0] = [1, 0, 0, 0];
        let record = moment.after.clone();
        take(moment, (answers, record));
    }
}

/// Whether the record is well formed is asked once: power-on is answered 0, and all else stays 1.
fn power_on_inside_does_not_mend(moment: &mut Moment) {
    let Some(sent) = Sent::taken(moment).filter(|_| !is_well_formed(moment.before)) else { return };
    let answer = |event: &Event| [u8::from(event.kind != kind::POWER_ON), 0, 0, 0];
    let answers = sent.recording.events.iter().map(answer).collect();
    let record = moment.before.clone();
    take(moment, (answers, record));
}

/// The batch has a check 1 of its own.
fn empty_batch_answers_1(moment: &mut Moment) {
    if Sent::taken(moment).is_some_and(|sent| sent.events() == 0) && !is_well_formed(moment.before) {
        refuse(moment, 1);
    }
}

/// A sound batch is run over other page bytes.
fn over_page_bytes(moment: &mut Moment, page_bytes: Vec<u8>) {
    if let Some(sent) = Sent::taken(moment) {
        take_events(moment, &Recording { page_bytes, ..sent.recording });
    }
}

/// Page offsets count from the first event.
fn pages_from_the_events_start(moment: &mut Moment) {
    let page_bytes = moment.command.data.get(2..).unwrap_or_default().to_vec();
    over_page_bytes(moment, page_bytes);
}

/// Page offsets count from E, the start of the data.
fn pages_from_e(moment: &mut Moment) {
    let page_bytes = moment.command.data.clone();
    over_page_bytes(moment, page_bytes);
}

/// IN gives its page in the buffer, after the answers.
fn in_gives_its_page(moment: &mut Moment) {
    let Some(sent) = Sent::taken(moment) else { return };
    let last = sent.recording.events.iter().rev().find(|event| event.kind == kind::IN && event.nexus < 16);
    let page =
        last.and_then(|event| response_pages::page(event.argument, moment.after, usize::from(event.nexus)));
    if let Some(page) = page {
        let beyond = &mut moment.reply.data[sent.events() * ANSWER_BYTES..];
        beyond.iter_mut().zip(page).for_each(|(byte, given)| *byte = given);
    }
}

/// IN and OUT use the protocol of the batch's command, if it has one.
fn protocol_of_the_command(moment: &mut Moment) {
    let protocol = moment.command.protocol;
    let Some(sent) = Sent::taken(moment).filter(|_| protocol != 0 && protocol != PROTOCOL) else { return };
    let calls = sent.recording.events.iter().map(|event| sent.recording.command(event));
    let outcome = run(moment.before, calls.map(|command| Command { protocol, ..command }));
    take(moment, outcome);
}

/// A buffer above the limit is cut to it.
fn buffer_above_the_limit_cut(moment: &mut Moment) {
    let batch = moment.command.batch().filter(|_| moment.command.kind == kind::BATCH);
    let Some(batch) = batch.filter(|_| usize::from(moment.command.argument) > LENT_LIMIT) else { return };
    if batch.broken(LENT_LIMIT).is_empty() {
        take_events(moment, &batch.recording());
    }
}

/// Events that run past the data are those that the data have.
fn events_past_the_data_cut(moment: &mut Moment) {
    let (command, room) = (moment.command, usize::from(moment.command.argument));
    if command.kind != kind::BATCH || command.data.len() < 2 || room > LENT_LIMIT || command.batch().is_some()
    {
        return;
    }
    let batch = Batch { events: &command.data[2..], page_bytes: &[] };
    match batch.broken(room).iter().map(|broken| broken.rule.verdict()).min() {
        Some(verdict) => refuse(moment, verdict.number()),
        None => take_events(moment, &batch.recording()),
    }
}
