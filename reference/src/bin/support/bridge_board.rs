//! The bridge board: it sends several events in one call, by request 5 of document 02.

use crate::{expected_words, reply_words, sense_of, Play, Played};
use reference::answer::NO_SENSE;
use reference::comparison::batch_builder::{p7, BatchParts};
use reference::comparison::session::give_record;
use reference::recording::{Recording, ANSWER_BYTES};
use reference::script::told;
use reference::stream::{Command, Reply, LENT_FILL};

/// The bytes that the board lends beyond the answers.
const BEYOND: usize = 4;

/// P7's calls, with P4's writes before the demount, and a lent buffer with some bytes beyond.
fn board() -> BatchParts {
    let batch = BatchParts::of(&p7());
    let room = batch.room + BEYOND;
    batch.with_room(room)
}

impl Play {
    pub fn bridge_board(&mut self) -> Played {
        self.document = "02";
        self.b1()?;
        self.b2()
    }

    fn b1(&mut self) -> Played {
        let expected = "the answers of the calls one by one, and the rest of the lent buffer kept";
        self.start("B1", "a bridge board's batch, P7 in one call", expected)?;
        let reply = self.batch(&board(), 0)?;
        self.answers(&board(), &reply, &[0, 0, 12, 0, 4, 11]);
        self.record("place 1 is empty with number 2", |record| {
            (record.places[1].is_used(), record.places[1].number, record.counter) == (false, 2, 2)
        })
    }

    fn b2(&mut self) -> Played {
        let expected = "22 before any event runs: the record and the lent buffer are as they were";
        self.start("B2", "the same with a wrong last event, a write with support flag 2", expected)?;
        let before = self.pipe.ask(&give_record())?;
        let mut wrong = board();
        wrong.events[5].argument = 2;
        let reply = self.batch(&wrong, 22)?;
        self.check(reply.data == vec![LENT_FILL; wrong.room], "the lent buffer as it was");
        let after = self.pipe.ask(&give_record())?;
        let same = before == after;
        println!("  The drive's record: {}", if same { "as it was" } else { "not as it was" });
        self.check(same, "the record as it was");
        Ok(())
    }

    /// The board sends a batch, which as a whole is answered by a number.
    fn batch(&mut self, batch: &BatchParts, number: u8) -> Result<Reply, String> {
        let command: Command = batch.command();
        let reply = self.pipe.ask(&command)?;
        let (events, page_bytes) = (batch.events.len(), batch.page_bytes.len());
        println!(
            "  The board sends {events} events with {page_bytes} page bytes and lends {} bytes -> {}",
            batch.room,
            reply_words(&command, &reply)
        );
        self.check((reply.number, reply.sense) == (number, NO_SENSE), &expected_words(number));
        Ok(reply)
    }

    /// The answers in the lent buffer, event by event, and the bytes beyond them.
    fn answers(&mut self, batch: &BatchParts, reply: &Reply, numbers: &[u8]) {
        let recording = Recording { events: batch.events.clone(), page_bytes: batch.page_bytes.clone() };
        for line in told(&recording, &reply.data).lines() {
            println!("    {line}");
        }
        let mut expected: Vec<u8> =
            numbers.iter().flat_map(|&number| [&[number], &sense_of(number)[..]].concat()).collect();
        let words = numbers.iter().map(u8::to_string).collect::<Vec<_>>().join(", ");
        let beyond = reply.data.get(numbers.len() * ANSWER_BYTES..).unwrap_or_default();
        println!("    and in the {} bytes beyond: {beyond:02X?}", beyond.len());
        expected.resize(batch.room, LENT_FILL);
        self.check(reply.data == expected, &format!("{words} with their sense, then A5h as before"));
    }
}
