//! The wrong fields of the pages that are answered 8. A recording's answers have four bytes each and no room for the
//! faulty byte, so a drive is asked for it.

use crate::answer::FIELD_WRONG;
use crate::answer_words::short;
use crate::field_words::field_of;
use crate::recording::{answer_bytes, Recording, ANSWER_BYTES};
use crate::stream::Reply;
use std::collections::BTreeMap;

/// The fields in words, by the positions of their events.
#[derive(Default)]
pub struct Fields(BTreeMap<usize, String>);

impl Fields {
    /// The fields that the replies to the events of a recording tell.
    pub fn of(recording: &Recording, replies: &[Reply]) -> Fields {
        let events = recording.events.iter().zip(replies).enumerate();
        let field = |(event, reply)| field_of(&recording.command(event), reply);
        Fields(events.filter_map(|(position, told)| Some((position, field(told)?))).collect())
    }

    /// The fields of a recording with its answers, four bytes an event. Where an answer is 8, `replies` is called for
    /// what a drive replies to the events from power-on; where none is, it isn't. What is wrong if a reply is another
    /// answer, or one of 8 tells no faulty byte.
    pub fn asked(
        recording: &Recording,
        answers: &[u8],
        replies: impl FnOnce() -> Result<Vec<Reply>, String>,
    ) -> Result<Fields, String> {
        if answers.chunks_exact(ANSWER_BYTES).all(|answer| answer[0] != FIELD_WRONG) {
            return Ok(Fields::default());
        }
        let replies = replies()?;
        for (position, (reply, answer)) in replies.iter().zip(answers.chunks_exact(ANSWER_BYTES)).enumerate()
        {
            is_same(reply, answer).map_err(|what| format!("event {position}: {what}"))?;
        }
        let fields = Fields::of(recording, &replies);
        let silent = |&(position, reply): &(usize, &Reply)| {
            reply.number == FIELD_WRONG && fields.at(position).is_none()
        };
        match replies.iter().enumerate().find(silent) {
            Some((position, reply)) => Err(format!(
                "event {position}: the drive's answer {FIELD_WRONG} has {} bytes of data, where the faulty byte of a \
                 page has 2",
                reply.data.len()
            )),
            None => Ok(fields),
        }
    }

    /// The field of an event's page.
    pub fn at(&self, position: usize) -> Option<&str> {
        self.0.get(&position).map(String::as_str)
    }
}

/// Whether a reply has the four bytes of an answer.
fn is_same(reply: &Reply, answer: &[u8]) -> Result<(), String> {
    if answer_bytes(reply) == answer {
        return Ok(());
    }
    let replay = short(answer[0], [answer[1], answer[2], answer[3]], None);
    Err(format!("the drive answers {}, where replay gave {replay}", short(reply.number, reply.sense, None)))
}
