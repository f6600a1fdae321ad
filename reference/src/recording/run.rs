//! 02, request 3: the events of a recording in order, each through its call.

use super::file::{Event, Recording};
use crate::codes::PROTOCOL;
use crate::record::Record;
use crate::stream::{Command, Drive, Reply};

/// 02, request 3: "four bytes an event".
pub const ANSWER_BYTES: usize = 4;

/// What replay says of a file.
#[derive(Clone, Copy, PartialEq, Eq, PartialOrd, Ord, Debug)]
pub enum Verdict {
    Taken,
    /// "refuses the file whole with 22, and nothing is written"
    WrongRecording,
}

impl Verdict {
    /// The verdict's number.
    pub fn number(self) -> u8 {
        match self {
            Verdict::Taken => 0,
            Verdict::WrongRecording => 22,
        }
    }
}

/// What a replay comes to: four bytes of answer an event, and the record at the end. A refused file has no answers,
/// and the record is power-on's.
#[derive(Clone, PartialEq, Eq, Debug)]
pub struct Replayed {
    pub verdict: Verdict,
    pub answers: Vec<u8>,
    pub record: Record,
}

/// Replays a file.
pub fn replay(file: &[u8]) -> Replayed {
    let mut answers = Vec::new();
    match Recording::read(file) {
        Some(recording) => {
            let record = run(&recording, |moment| answers.extend(answer_bytes(moment.reply)));
            Replayed { verdict: Verdict::Taken, answers, record }
        }
        None => Replayed { verdict: Verdict::WrongRecording, answers, record: Record::power_on() },
    }
}

/// An event that is run: the call it stands for, the record before it, the reply, and the drive after it.
pub struct Moment<'run> {
    pub event: &'run Event,
    pub command: &'run Command,
    pub before: &'run Record,
    pub reply: &'run Reply,
    pub drive: &'run Drive,
}

/// "Replay starts from power-on": the events on a drive of their own. Gives the record at the end.
pub fn run(recording: &Recording, show: impl FnMut(&Moment)) -> Record {
    let mut drive = Drive::new();
    run_on(&mut drive, recording, show);
    drive.controller().record.clone()
}

/// The events in order on one drive, from the record that it has, each shown when it is done.
pub fn run_on(drive: &mut Drive, recording: &Recording, mut show: impl FnMut(&Moment)) {
    for event in &recording.events {
        let command = recording.command(event);
        let before = drive.controller().record.clone();
        let reply = drive.answer(&command);
        show(&Moment { event, command: &command, before: &before, reply: &reply, drive });
    }
}

/// "answer number and sense triple, zeros where there is none".
pub fn answer_bytes(reply: &Reply) -> [u8; ANSWER_BYTES] {
    let [key, code, qualifier] = reply.sense;
    [reply.number, key, code, qualifier]
}

impl Recording {
    /// Asks a drive for each event in turn: its replies, up to the event that has none, and why it hasn't.
    pub fn replies(
        &self,
        mut ask: impl FnMut(&Command) -> Result<Reply, String>,
    ) -> (Vec<Reply>, Result<(), String>) {
        let mut replies = Vec::new();
        for (position, event) in self.events.iter().enumerate() {
            match ask(&self.command(event)) {
                Ok(reply) => replies.push(reply),
                Err(fault) => return (replies, Err(format!("event {position}: {fault}"))),
            }
        }
        (replies, Ok(()))
    }

    /// The call that an event stands for. "IN and OUT events use protocol 20h; IN gives no page here": its lent buffer
    /// is of no bytes.
    pub fn command(&self, event: &Event) -> Command {
        let data = self.page(event).unwrap_or_default().to_vec();
        Command {
            kind: event.kind,
            nexus: event.nexus,
            argument: event.argument,
            protocol: PROTOCOL,
            port: 0,
            length: data.len() as u16,
            data,
        }
    }
}
