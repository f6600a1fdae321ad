//! The other drive: a program that speaks the stream on its standard input and output. A thread writes and a
//! thread reads, so a batch of commands can be sent before the first reply is taken without a deadlock.

use crate::stream::{Reply, REPLY_BYTES};
use std::io::{self, Read, Write};
use std::process::{Child, Command as Program, ExitStatus, Stdio};
use std::sync::mpsc::{channel, Receiver, RecvTimeoutError, Sender};
use std::thread;
use std::time::{Duration, Instant};

/// How long the rest of a reply that already differs is waited for.
const REST_OF_WRONG_REPLY: Duration = Duration::from_millis(300);

/// Why no whole reply came.
#[derive(Clone, PartialEq, Eq, Debug)]
pub enum Trouble {
    /// The output ended; so many bytes of the reply had come.
    Ended { bytes: usize },
    /// Nothing more came in time; so many bytes of the reply had come.
    Silent { bytes: usize },
}

/// What the reader's thread saw: bytes, or that the output ended.
type Chunk = Vec<u8>;

/// A running drive.
pub struct OtherDrive {
    child: Child,
    input: Option<Sender<Vec<u8>>>,
    output: Receiver<Chunk>,
    taken: Vec<u8>,
    position: usize,
    patience: Duration,
}

impl OtherDrive {
    /// Starts the program with its arguments.
    pub fn start(program: &[String], patience: Duration) -> io::Result<OtherDrive> {
        let mut child = Program::new(&program[0])
            .args(&program[1..])
            .stdin(Stdio::piped())
            .stdout(Stdio::piped())
            .spawn()?;
        let mut stdin = child.stdin.take().expect("its input is a pipe");
        let mut stdout = child.stdout.take().expect("its output is a pipe");
        let (input, batches) = channel::<Vec<u8>>();
        thread::spawn(move || {
            for batch in batches {
                if stdin.write_all(&batch).and_then(|()| stdin.flush()).is_err() {
                    break;
                }
            }
        });
        let (chunks, output) = channel();
        thread::spawn(move || {
            let mut chunk = vec![0; 1 << 16];
            while let Ok(count) = stdout.read(&mut chunk) {
                if count == 0 || chunks.send(chunk[..count].to_vec()).is_err() {
                    break;
                }
            }
        });
        Ok(OtherDrive { child, input: Some(input), output, taken: Vec::new(), position: 0, patience })
    }

    /// Sends bytes; a drive that has ended is noticed by its missing replies.
    pub fn send(&mut self, bytes: Vec<u8>) {
        if let Some(input) = &self.input {
            let _ = input.send(bytes);
        }
    }

    /// Waits until so many bytes have come that aren't taken yet.
    fn await_bytes(&mut self, count: usize, patience: Duration) -> Result<(), Trouble> {
        let end = Instant::now() + patience;
        while self.taken.len() - self.position < count {
            let bytes = self.taken.len() - self.position;
            match self.output.recv_timeout(end.saturating_duration_since(Instant::now())) {
                Ok(chunk) => {
                    self.taken.drain(..self.position);
                    self.position = 0;
                    self.taken.extend(chunk);
                }
                Err(RecvTimeoutError::Disconnected) => return Err(Trouble::Ended { bytes }),
                Err(RecvTimeoutError::Timeout) => return Err(Trouble::Silent { bytes }),
            }
        }
        Ok(())
    }

    /// Takes bytes that have come.
    fn take(&mut self, count: usize) -> &[u8] {
        let start = self.position;
        self.position += count;
        &self.taken[start..self.position]
    }

    /// Takes a reply and tells whether it equals the expected one; a different one is given as it came.
    pub fn expect(&mut self, expected: &[u8]) -> Result<Option<Reply>, Trouble> {
        self.await_bytes(REPLY_BYTES, self.patience)?;
        let header: [u8; REPLY_BYTES] = self.take(REPLY_BYTES).try_into().expect("six bytes");
        let same = header == expected[..REPLY_BYTES];
        let count = usize::from(u16::from_be_bytes([header[4], header[5]]));
        let patience = if same { self.patience } else { REST_OF_WRONG_REPLY };
        let arrived = self.await_bytes(count, patience);
        if same {
            arrived?;
        }
        let available = count.min(self.taken.len() - self.position);
        let data = self.take(available);
        if same && data == &expected[REPLY_BYTES..] {
            return Ok(None);
        }
        Ok(Some(Reply { number: header[0], sense: [header[1], header[2], header[3]], data: data.to_vec() }))
    }

    /// Closes the input and takes everything up to the end of the output, with the program's exit status.
    pub fn end(&mut self) -> Result<(Vec<u8>, ExitStatus), Trouble> {
        self.input = None;
        let end = Instant::now() + self.patience;
        let mut rest = self.taken.split_off(self.position);
        loop {
            match self.output.recv_timeout(end.saturating_duration_since(Instant::now())) {
                Ok(chunk) => rest.extend(chunk),
                Err(RecvTimeoutError::Disconnected) => break,
                Err(RecvTimeoutError::Timeout) => return Err(Trouble::Silent { bytes: rest.len() }),
            }
        }
        loop {
            match self.child.try_wait() {
                Ok(Some(status)) => return Ok((rest, status)),
                _ if Instant::now() >= end => return Err(Trouble::Silent { bytes: rest.len() }),
                _ => thread::sleep(Duration::from_millis(1)),
            }
        }
    }
}

impl Drop for OtherDrive {
    /// Ends the program this started, if it hasn't ended.
    fn drop(&mut self) {
        self.input = None;
        let _ = self.child.kill();
        let _ = self.child.wait();
    }
}
