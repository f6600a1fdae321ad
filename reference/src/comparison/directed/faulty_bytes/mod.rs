//! 02's request 6: the byte that is told of a wrong page, for OUT and for the status reader, by each sentence of the
//! request, with what isn't wrong beside it.

mod draft;
mod fields;
mod lists;
mod other_answers;
mod pairs;
mod supplemental_keys;

use crate::comparison::session::Sink;

pub fn sessions(sink: &mut Sink) {
    fields::sessions(sink);
    lists::sessions(sink);
    supplemental_keys::sessions(sink);
    pairs::sessions(sink);
    other_answers::sessions(sink);
}
