//! The claim's sessions of writes, as far as they are short.

use crate::comparison::claims;
use crate::comparison::reasons::case::{put, Sink, MOST_EVENTS};
use crate::comparison::recordings::case::Group;

pub fn cases(sink: &mut Sink) {
    for (name, commands) in claims::sessions() {
        if commands.len() <= MOST_EVENTS {
            put(sink, Group::ReasonSessions, name, &commands);
        }
    }
}
