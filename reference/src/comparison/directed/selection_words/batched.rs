//! Batches of calls, and whom the sets serve after them.

use super::asking::Asking;
use super::from_power_on;
use crate::comparison::batch_builder::{p7, BatchParts};
use crate::comparison::directed::batches::{day, every_kind_of_event};
use crate::comparison::record_builder::{full, mixed};
use crate::comparison::recordings::builder::is_recordable;
use crate::comparison::session::{event, Session, Sink};
use crate::record::Record;
use crate::stream::{kind, Command};

/// Calls in one batch at most.
const CALLS: usize = 7;

pub fn sessions(sink: &mut Sink) {
    days(sink);
    from_power_on(&mut |session| {
        let mut asking = Asking::new();
        let calls: Vec<Command> = session.commands.into_iter().filter(is_recordable).collect();
        calls.chunks(CALLS).for_each(|calls| asking.call(BatchParts::of(calls).command()));
        let Session { name, commands } = asking.session(&session.name);
        sink(Session { name: format!("{name}, in batches"), commands });
    });
}

/// Days of calls from several records.
fn days(sink: &mut Sink) {
    for record in [Record::power_on(), mixed(), full([4, 3, 2, 1])] {
        for start in 0..12 {
            let mut asking = Asking::from(&record);
            for part in 0..6 {
                asking.call(BatchParts::of(&day(start + part, 1 + part)).command());
            }
            asking.call(BatchParts::of(&p7()).command());
            asking.call(BatchParts::of(&every_kind_of_event()).command());
            asking.call(event(kind::DEMOUNT));
            asking.finish("whom sets serve: batches", sink);
        }
    }
}
