//! Which hosts each set serves, by request 7 of document 02.

use crate::{reply_words, Play, Played};
use reference::answer::NO_SENSE;
use reference::comparison::session::serves;
use reference::selection_words::in_words;
use reference::sizes::PLACES;
use reference::stream::{Command, Reply};

impl Play {
    /// The operator asks which nexuses the set in each place serves (kind 13); expected are the words of places 0 to 4.
    pub fn served(&mut self, words: [u64; PLACES]) -> Played {
        println!("  The operator asks which nexuses each set serves (02, request 7)");
        let document = std::mem::replace(&mut self.document, "02");
        for (place, word) in words.into_iter().enumerate() {
            let command = serves(place as u16);
            let reply = self.pipe.ask(&command)?;
            let expected = Reply { number: 0, sense: NO_SENSE, data: word.to_be_bytes().to_vec() };
            println!("    place {place} {}", served_words(&command, &reply));
            self.check(reply == expected, &format!("place {place} {}", served_words(&command, &expected)));
        }
        self.document = document;
        Ok(())
    }
}

/// Whom a place serves, or the answer that says something else.
fn served_words(command: &Command, reply: &Reply) -> String {
    match reply.served() {
        Some(word) => format!("serves {}", in_words(word)),
        None => format!("-> {} with {} bytes", reply_words(command, reply), reply.data.len()),
    }
}
