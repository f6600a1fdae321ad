//! The place of a LOCAL set (02, request 4: no answer changes): all that it is chosen by, brought about by calls alone.

mod emptied;
mod locks;
mod mixtures;
mod nexuses;
mod no_place;
mod sequence;

use crate::comparison::session::Sink;

pub fn sessions(sink: &mut Sink) {
    nexuses::sessions(sink);
    no_place::sessions(sink);
    locks::sessions(sink);
    emptied::sessions(sink);
    mixtures::sessions(sink);
}
