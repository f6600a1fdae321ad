//! A session with a difference, made short: commands are dropped, then pages shortened and bytes zeroed, a loaded record's
//! with its words put right where they were. Of batches, events are dropped and page bytes cut; one whose events differ one
//! by one too becomes those.

use super::batch_builder::BatchParts;
use super::difference::{compare_fresh, Difference};
use super::page_builder::set_length;
use super::record_builder::with_right_words;
use super::recordings::shrink::cut_from_page;
use crate::recording::{ANSWER_BYTES, BATCH_EVENTS};
use crate::stream::{kind, Command};
use std::time::{Duration, Instant};

/// The most sessions tried and the longest time taken.
const TRIES: usize = 4000;
const TIME: Duration = Duration::from_secs(90);

/// A short session and its difference.
pub struct Short {
    pub commands: Vec<Command>,
    pub difference: Difference,
}

/// Tries sessions on fresh drives of the other program and keeps the last one with a difference.
struct Shrinker<'parts> {
    program: &'parts [String],
    patience: Duration,
    tries: usize,
    end: Instant,
    short: Short,
}

/// Makes a session short; nothing if it has no difference on a fresh drive.
pub fn shrink(program: &[String], commands: &[Command], patience: Duration) -> Option<Short> {
    let difference = compare_fresh(program, commands, patience)?;
    let commands = commands[..=difference.command].to_vec();
    let mut shrinker = Shrinker {
        program,
        patience: patience.min(Duration::from_secs(2)),
        tries: TRIES,
        end: Instant::now() + TIME,
        short: Short { commands, difference },
    };
    shrinker.drop_commands();
    for number in (0..shrinker.short.commands.len()).rev() {
        shrinker.send_one_by_one(number);
    }
    shrinker.drop_commands();
    for number in 0..shrinker.short.commands.len() {
        shrinker.drop_events(number);
        shrinker.cut_page_bytes(number);
        shrinker.shorten_page(number);
        shrinker.zero_data(number);
        shrinker.lessen_lent_buffer(number);
    }
    shrinker.drop_commands();
    Some(shrinker.short)
}

impl Shrinker<'_> {
    /// Keeps a session if it has a difference, up to that. It has to start from a known record.
    fn keep(&mut self, mut commands: Vec<Command>) -> bool {
        let start = commands.first().map(|command| command.kind);
        if !matches!(start, Some(kind::POWER_ON | kind::LOAD_RECORD)) {
            return false;
        }
        if self.tries == 0 || Instant::now() >= self.end {
            return false;
        }
        self.tries -= 1;
        match compare_fresh(self.program, &commands, self.patience) {
            None => false,
            Some(difference) => {
                commands.truncate(difference.command + 1);
                self.short = Short { commands, difference };
                true
            }
        }
    }

    /// Drops runs of commands, long runs first.
    fn drop_commands(&mut self) {
        let mut run = self.short.commands.len() / 2;
        while run > 0 {
            let mut start = 0;
            while start + run <= self.short.commands.len() {
                let mut commands = self.short.commands.clone();
                commands.drain(start..start + run);
                if !self.keep(commands) {
                    start += run;
                }
            }
            run /= 2;
        }
    }

    /// Keeps the session with one command changed, if it still has a difference.
    fn keep_with(&mut self, number: usize, command: Command) -> bool {
        let Some(present) = self.short.commands.get(number) else { return false };
        if *present == command {
            return false;
        }
        let mut commands = self.short.commands.clone();
        commands[number] = command;
        self.keep(commands)
    }

    /// Sends the events of a batch as commands.
    fn send_one_by_one(&mut self, number: usize) {
        let Some(command) = self.short.commands.get(number).filter(|it| it.kind == kind::BATCH) else {
            return;
        };
        let Some(batch) = command.batch().map(|batch| batch.recording()) else { return };
        if batch.events.len() <= BATCH_EVENTS {
            let calls = batch.events.iter().map(|event| batch.command(event));
            let mut commands = self.short.commands.clone();
            commands.splice(number..=number, calls);
            self.keep(commands);
        }
    }

    /// The parts of a command that is a batch.
    fn batch(&self, number: usize) -> Option<BatchParts> {
        let command = self.short.commands.get(number).filter(|command| command.kind == kind::BATCH)?;
        BatchParts::read(command)
    }

    /// Drops runs of a batch's events, long runs first, the room lessened with them or as it was; then the part event.
    fn drop_events(&mut self, number: usize) {
        let mut run = self.batch(number).map_or(0, |batch| batch.events.len());
        while run > 0 {
            let mut start = 0;
            while let Some(batch) = self.batch(number).filter(|batch| start + run <= batch.events.len()) {
                let mut fewer = batch;
                fewer.events.drain(start..start + run);
                let lessened = fewer.clone().with_room(fewer.room.saturating_sub(run * ANSWER_BYTES));
                if !self.keep_with(number, lessened.command()) && !self.keep_with(number, fewer.command()) {
                    start += run;
                }
            }
            run /= 2;
        }
        if let Some(batch) = self.batch(number) {
            self.keep_with(number, BatchParts { left_over: Vec::new(), ..batch }.command());
        }
    }

    /// Cuts runs of a batch's page bytes, long runs first; the pages' own lengths made right or as they were.
    fn cut_page_bytes(&mut self, number: usize) {
        let mut run = self.batch(number).map_or(0, |batch| batch.page_bytes.len());
        while run > 0 {
            let mut start = 0;
            while let Some(batch) = self.batch(number).filter(|batch| start + run <= batch.page_bytes.len()) {
                let mut fewer = batch;
                fewer.page_bytes.drain(start..start + run);
                let outs = fewer.events.iter_mut().filter(|event| event.kind == kind::OUT);
                outs.for_each(|event| cut_from_page(event, start, run));
                let right = fewer.clone().with_right_pages();
                if !self.keep_with(number, right.command()) && !self.keep_with(number, fewer.command()) {
                    start += run;
                }
            }
            run /= 2;
        }
    }

    /// Cuts the data of OUT and of the status reader, the page's length as it was or made right.
    fn shorten_page(&mut self, number: usize) {
        let mut cut = match self.short.commands.get(number) {
            Some(command) if matches!(command.kind, kind::OUT | kind::READ_STATUS) => command.data.len(),
            _ => return,
        };
        while cut > 0 {
            let Some(command) = self.short.commands.get(number) else { return };
            if cut > command.data.len() || !self.cut_page(number, command.clone(), cut) {
                cut /= 2;
            }
        }
    }

    /// Cuts so many bytes off a page's end, or from its middle after the first 20.
    fn cut_page(&mut self, number: usize, command: Command, cut: usize) -> bool {
        let left = command.data.len() - cut;
        let mut shapes = vec![command.data[..left].to_vec()];
        if left >= 20 {
            shapes.push([&command.data[..20], &command.data[20 + cut..]].concat());
        }
        for data in shapes {
            let mut right = data.clone();
            set_length(&mut right);
            for data in [right, data] {
                let length = data.len() as u16;
                if self.keep_with(number, Command { data, length, ..command.clone() }) {
                    return true;
                }
            }
        }
        false
    }

    /// Zeroes runs of data bytes, long runs first.
    fn zero_data(&mut self, number: usize) {
        let Some(command) = self.short.commands.get(number) else { return };
        let size = command.data.len();
        let mut run = size.next_power_of_two();
        while run > 0 {
            for start in (0..size).step_by(run) {
                let Some(command) = self.short.commands.get(number) else { return };
                let mut command = command.clone();
                let stop = (start + run).min(size);
                if command.data[start..stop].iter().any(|&byte| byte != 0) {
                    command.data[start..stop].fill(0);
                    self.keep_zeroed(number, command);
                }
            }
            run /= 2;
        }
    }

    /// Keeps a command some of whose data were zeroed; a record also with the words that its scopes then say.
    fn keep_zeroed(&mut self, number: usize, command: Command) {
        if self.keep_with(number, command.clone()) || command.kind != kind::LOAD_RECORD {
            return;
        }
        let data = with_right_words(command.data.clone());
        self.keep_with(number, Command { data, ..command });
    }

    /// Makes the lent buffer of IN, or of a batch, smaller.
    fn lessen_lent_buffer(&mut self, number: usize) {
        let Some(command) = self.short.commands.get(number).cloned() else { return };
        let with_size = |size| match command.kind {
            kind::IN => Some(Command { length: size, ..command.clone() }),
            kind::BATCH => Some(Command { argument: size, ..command.clone() }),
            _ => None,
        };
        let size = if command.kind == kind::IN { command.length } else { command.argument };
        for smaller in (0..size.min(128)).filter_map(with_size) {
            if self.keep_with(number, smaller) {
                return;
            }
        }
    }
}
