//! The comparison of the library with another drive on a pipe: replies and, after every call, the record.

pub mod batch_builder;
mod batch_cases;
mod ceem_cases;
pub mod claims;
mod difference;
mod directed;
pub mod faulty_byte_cases;
pub mod numbers;
mod other_drive;
pub mod page_builder;
mod place_cases;
mod random;
mod reached;
pub mod reasons;
pub mod record_builder;
pub mod recordings;
mod report;
pub mod salvages;
pub mod session;
mod shrink;
pub mod vector_file;
mod wire;
pub mod word_cases;

use crate::stream::Drive;
use difference::Difference;
use other_drive::OtherDrive;
use random::RandomSessions;
use reached::Reached;
use session::Session;
use std::sync::mpsc::{sync_channel, Receiver};
use std::thread;
use std::time::{Duration, Instant};

/// The calls sent before their replies are taken.
const PORTION: usize = 400;

/// How a comparison is run.
#[derive(Clone, Debug)]
pub struct Settings {
    /// The other drive's program and its arguments.
    pub program: Vec<String>,
    pub seed: u64,
    /// The number of random calls.
    pub calls: u64,
    pub directed: bool,
    pub random: bool,
    /// How long a reply is waited for.
    pub patience: Duration,
}

/// A comparison under way.
struct Comparison<'settings> {
    settings: &'settings Settings,
    drive: Drive,
    other: OtherDrive,
    reached: Reached,
    portion: Vec<Session>,
    calls_in_portion: usize,
    /// The batches of events that the library answered as it answers their calls one by one.
    equal_to_calls: usize,
    failure: Option<String>,
}

/// Runs a comparison and prints what it came to; whether all was equal and all was reached.
pub fn run(settings: &Settings) -> bool {
    println!("seed {}", settings.seed);
    let other = match OtherDrive::start(&settings.program, settings.patience) {
        Ok(other) => other,
        Err(error) => {
            println!("the other drive can't be started: {error}");
            return false;
        }
    };
    let mut comparison = Comparison {
        settings,
        drive: Drive::new(),
        other,
        reached: Reached::default(),
        portion: Vec::new(),
        calls_in_portion: 0,
        equal_to_calls: 0,
        failure: None,
    };
    let start = Instant::now();
    if settings.directed {
        comparison.self_check();
        comparison.directed_sessions();
    }
    if settings.random {
        comparison.random_sessions();
    }
    comparison.exchange();
    let time = start.elapsed();
    comparison.end();
    comparison.conclude(time)
}

/// The directed sessions, made beside the comparison. Those that nobody takes any more are let go.
fn directed_sessions() -> Receiver<Session> {
    let (sender, sessions) = sync_channel(PORTION);
    thread::spawn(move || {
        directed::sessions(&mut |session| {
            let _ = sender.send(session);
        });
    });
    sessions
}

impl Comparison<'_> {
    /// Asks the library to agree with itself.
    fn self_check(&mut self) {
        match directed::self_check() {
            Ok(batches) => self.equal_to_calls = batches,
            Err(text) => self.failure = Some(text),
        }
    }

    /// The directed sessions, up to a difference.
    fn directed_sessions(&mut self) {
        for session in directed_sessions() {
            self.take(session);
            if self.failure.is_some() {
                break;
            }
        }
    }

    /// Random sessions until the number of calls is reached.
    fn random_sessions(&mut self) {
        let mut sessions = RandomSessions::new(self.settings.seed);
        let mut left = self.settings.calls;
        while left > 0 && self.failure.is_none() {
            let session = sessions.session(left.min(1 << 20) as usize);
            left -= session.commands.len() as u64;
            self.take(session);
        }
    }

    /// Takes a session into the portion; after a difference sessions are let go.
    fn take(&mut self, session: Session) {
        if self.failure.is_some() {
            return;
        }
        self.calls_in_portion += session.commands.len();
        self.portion.push(session);
        if self.calls_in_portion >= PORTION {
            self.exchange();
        }
    }

    /// Sends the portion and compares its replies.
    fn exchange(&mut self) {
        let portion = std::mem::take(&mut self.portion);
        self.calls_in_portion = 0;
        if self.failure.is_some() {
            return;
        }
        let bytes = portion.iter().map(|session| difference::bytes_of(&session.commands)).collect::<Vec<_>>();
        self.other.send(bytes.concat());
        for session in &portion {
            let found = difference::compare(
                &session.commands,
                &mut self.drive,
                &mut self.other,
                Some(&mut self.reached),
            );
            if let Some(difference) = found {
                self.failure = Some(self.report(session, &portion, difference));
                return;
            }
        }
    }

    /// The report of a difference, its session made short.
    fn report(&self, session: &Session, portion: &[Session], difference: Difference) -> String {
        let Settings { program, patience, .. } = self.settings;
        let whole: Vec<_> = portion.iter().flat_map(|session| session.commands.clone()).collect();
        let short = shrink::shrink(program, &session.commands, *patience)
            .or_else(|| shrink::shrink(program, &whole, *patience));
        match short {
            Some(short) => report::difference_text(&session.name, &short.commands, &short.difference),
            None => {
                let text = report::difference_text(&session.name, &session.commands, &difference);
                format!("(the difference doesn't come again on a fresh drive)\n{text}")
            }
        }
    }

    /// After the last session: the other drive says nothing more and ends; then what the stream promises.
    fn end(&mut self) {
        if self.failure.is_some() {
            return;
        }
        match self.other.end() {
            Ok((rest, status)) if rest.is_empty() && status.success() => {}
            outcome => self.failure = Some(format!("DIFFERENCE at the end of input: {outcome:?}\n")),
        }
        self.failure = self.failure.take().or_else(|| wire::check(self.settings).err());
    }

    /// Prints the counts and the failure, if any.
    fn conclude(&self, time: Duration) -> bool {
        let calls = self.reached.calls;
        if let Some(failure) = &self.failure {
            print!("{failure}");
            println!("seed {}, {calls} calls: FAILED", self.settings.seed);
            return false;
        }
        print!("{}", self.reached.text());
        if self.settings.directed {
            println!("batches that are the reference's calls one by one: {}", self.equal_to_calls);
        }
        let seconds = time.as_secs_f64();
        println!("{calls} calls in {seconds:.1} s, {:.0} calls a second", calls as f64 / seconds);
        let missing = self.reached.missing_text(self.settings.directed);
        if !missing.is_empty() {
            print!("{missing}");
            println!("seed {}: all equal, but NOT ALL REACHED", self.settings.seed);
            return false;
        }
        println!("seed {}: all equal, all reached", self.settings.seed);
        true
    }
}
