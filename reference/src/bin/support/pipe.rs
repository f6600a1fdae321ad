//! A drive program on a pipe, asked one command at a time.

use reference::stream::{Command, Reply, REPLY_BYTES};
use std::ffi::OsStr;
use std::io::{self, Read, Write};
use std::path::Path;
use std::process::{Child, ChildStdin, Command as Program, Stdio};
use std::sync::mpsc::{channel, Receiver};
use std::thread;
use std::time::Duration;

/// How long a reply is waited for.
const PATIENCE: Duration = Duration::from_secs(60);

/// A running drive program.
pub struct Pipe {
    child: Child,
    input: Option<ChildStdin>,
    replies: Receiver<Reply>,
}

impl Pipe {
    /// Starts the program with its arguments.
    pub fn start(program: &[impl AsRef<OsStr>]) -> Result<Pipe, String> {
        let mut child = Program::new(&program[0])
            .args(&program[1..])
            .stdin(Stdio::piped())
            .stdout(Stdio::piped())
            .spawn()
            .map_err(|error| format!("{} can't be started: {error}", Path::new(&program[0]).display()))?;
        let input = child.stdin.take();
        let mut output = child.stdout.take().expect("its output is a pipe");
        let (sender, replies) = channel();
        thread::spawn(move || {
            while let Ok(reply) = read_reply(&mut output) {
                if sender.send(reply).is_err() {
                    break;
                }
            }
        });
        Ok(Pipe { child, input, replies })
    }

    /// Sends a command and takes its reply.
    pub fn ask(&mut self, command: &Command) -> Result<Reply, String> {
        let mut bytes = Vec::new();
        command.give(&mut bytes);
        let input = self.input.as_mut().expect("the input is open until the pipe is dropped");
        input
            .write_all(&bytes)
            .and_then(|()| input.flush())
            .map_err(|error| format!("the drive program takes no command: {error}"))?;
        self.replies.recv_timeout(PATIENCE).map_err(|_| "the drive program gives no whole reply".to_string())
    }
}

impl Drop for Pipe {
    /// Ends the program this started, if it hasn't ended.
    fn drop(&mut self) {
        self.input = None;
        let _ = self.child.kill();
        let _ = self.child.wait();
    }
}

/// Reads one reply: "answer number, sense key, ASC, ASCQ, length M (2), M bytes".
fn read_reply(output: &mut impl Read) -> io::Result<Reply> {
    let mut header = [0; REPLY_BYTES];
    output.read_exact(&mut header)?;
    let mut data = vec![0; usize::from(u16::from_be_bytes([header[4], header[5]]))];
    output.read_exact(&mut data)?;
    Ok(Reply { number: header[0], sense: [header[1], header[2], header[3]], data })
}
