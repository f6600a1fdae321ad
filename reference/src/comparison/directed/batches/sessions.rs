//! The sessions of other files as batches: what can be recorded of them, up to 64 calls at a time.

use crate::comparison::batch_builder::BatchParts;
use crate::comparison::directed::{examples, local_places, pending, places, restoring};
use crate::comparison::recordings::builder::is_recordable;
use crate::comparison::session::{Session, Sink};
use crate::recording::BATCH_EVENTS;
use crate::stream::Command;

pub fn sessions(sink: &mut Sink) {
    let mut batched = |session: Session| {
        let commands = batched(&session.commands);
        if commands.len() < session.commands.len() {
            sink(Session { name: format!("{}, in batches", session.name), commands });
        }
    };
    examples::sessions(&mut batched);
    restoring::sessions(&mut batched);
    places::sessions(&mut batched);
    local_places::sessions(&mut batched);
    pending::sessions(&mut batched);
}

/// The commands, with each run of calls that events can stand for as batches. The first command stays: a session starts
/// from a known record.
fn batched(commands: &[Command]) -> Vec<Command> {
    let (start, rest) = commands.split_at(1);
    let mut batched = start.to_vec();
    for run in rest.chunk_by(|one, other| is_recordable(one) == is_recordable(other)) {
        if is_recordable(&run[0]) {
            batched.extend(run.chunks(BATCH_EVENTS).map(|calls| BatchParts::of(calls).command()));
        } else {
            batched.extend(run.iter().cloned());
        }
    }
    batched
}
