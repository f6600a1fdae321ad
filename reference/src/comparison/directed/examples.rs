//! P1 to P10 of 01, "Proved examples", as sessions.

use crate::codes::{decryption, scope};
use crate::comparison::page_builder::{descriptor, SetPage};
use crate::comparison::session::{event, power_on, security_in, security_out, write, Session, Sink};
use crate::stream::{kind, Command};

/// A session from power-on.
fn session(name: &str, commands: Vec<Command>, sink: &mut Sink) {
    sink(Session { name: name.to_string(), commands: [vec![power_on()], commands].concat() });
}

/// K from a nexus.
fn k(nexus: u8) -> Command {
    security_out(nexus, SetPage::k().bytes())
}

/// K with other descriptors.
fn k_with(list: Vec<u8>) -> Command {
    security_out(3, SetPage { list, ..SetPage::k() }.bytes())
}

pub fn sessions(sink: &mut Sink) {
    session("P1", vec![security_in(3, 0x0020, 24)], sink);
    session("P2", vec![k(3), security_in(3, 0x0020, 24)], sink);
    let mut scope_three = SetPage::k().bytes();
    scope_three[4] = 0x61;
    let cut = SetPage::k().bytes()[..51].to_vec();
    session("P3", vec![security_out(3, cut), security_out(3, scope_three)], sink);
    session("P4", vec![k(3), write(3, true), write(3, false)], sink);
    let unlocked = |nexus| security_out(nexus, SetPage::k_unlocked().bytes());
    session(
        "P5",
        (0..5).map(unlocked).chain([write(0, true), write(0, true), write(4, true)]).collect(),
        sink,
    );
    session("P6", (0..5).map(k).collect(), sink);
    session("P7", vec![k(3), event(kind::DEMOUNT), write(3, true), write(3, true)], sink);
    let all = security_out(6, SetPage::all().bytes());
    let locks = security_out(5, SetPage::public(true).bytes());
    session("P8", vec![locks, all, write(5, true), write(5, true)], sink);
    let supplemental =
        |at| security_out(3, SetPage::supplemental(scope::LOCAL, decryption::DECRYPT, at).bytes());
    let keys = (1..=5).flat_map(|at| [supplemental(at), write(3, true)]);
    session("P9", [k(3)].into_iter().chain(keys).collect(), sink);
    let kads = [32, 33, 0].map(|length| k_with(descriptor(0, length, usize::from(length))));
    session("P10", kads.to_vec(), sink);
}
