//! The other program, which takes a recording on its standard input, started anew for each.

use super::outcome::{Given, Outcome};
use super::replayer::{Replayer, Way};
use std::io::{self, Read, Write};
use std::process::{Child, Command, Stdio};
use std::sync::mpsc::{channel, Receiver};
use std::thread;
use std::time::{Duration, Instant};

/// How long a program may take over one recording.
const PATIENCE: Duration = Duration::from_secs(30);

/// A program and its arguments.
pub struct Program<'parts>(pub &'parts [String]);

/// For the record `--record` is appended.
impl Replayer for Program<'_> {
    fn replay(&self, file: &[u8], way: Way) -> Outcome {
        self.outcome(file, if way == Way::Record { &["--record"] } else { &[] })
    }
}

impl Program<'_> {
    /// What comes of the program for a file, with some arguments more.
    pub fn outcome(&self, file: &[u8], arguments: &[&str]) -> Outcome {
        match self.start(arguments).map(|child| converse(child, file)) {
            Ok(outcome) => outcome,
            Err(error) => Outcome::Nothing(format!("it can't be started: {error}")),
        }
    }

    /// Starts the program.
    fn start(&self, arguments: &[&str]) -> io::Result<Child> {
        Command::new(&self.0[0])
            .args(&self.0[1..])
            .args(arguments)
            .stdin(Stdio::piped())
            .stdout(Stdio::piped())
            .stderr(Stdio::piped())
            .spawn()
    }
}

/// Gives a program the file and takes what it writes. Threads write and read, so that neither side waits for ever; a
/// program may leave a part of its input unread.
fn converse(mut child: Child, file: &[u8]) -> Outcome {
    let mut input = child.stdin.take().expect("its input is a pipe");
    let output = collect(child.stdout.take().expect("its output is a pipe"));
    let errors = collect(child.stderr.take().expect("its errors are a pipe"));
    let file = file.to_vec();
    thread::spawn(move || input.write_all(&file));
    let end = Instant::now() + PATIENCE;
    let in_time =
        |bytes: Receiver<Vec<u8>>| bytes.recv_timeout(end.saturating_duration_since(Instant::now())).ok();
    let outcome = match (in_time(output), in_time(errors)) {
        (Some(output), Some(errors)) => Outcome::Given(Given { output, errors }),
        _ => Outcome::Nothing("its output has no end in time".to_string()),
    };
    let _ = child.kill();
    let _ = child.wait();
    outcome
}

/// All the bytes of a pipe, once it ends.
fn collect(mut pipe: impl Read + Send + 'static) -> Receiver<Vec<u8>> {
    let (sender, receiver) = channel();
    thread::spawn(move || {
        let mut bytes = Vec::new();
        if pipe.read_to_end(&mut bytes).is_ok() {
            let _ = sender.send(bytes);
        }
    });
    receiver
}
