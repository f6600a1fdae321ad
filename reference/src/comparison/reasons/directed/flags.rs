//! Which call raised a flag: flags that are pending when a second call comes, that are taken and raised again, both at
//! once; the call that raised one and the one that touched a lock's set first, where they aren't the same.

use super::{all, kept, local, public, register, takers, ASKED, FOURTH, OTHER, THIRD};
use crate::comparison::reasons::case::{put, Sink};
use crate::comparison::recordings::case::Group;
use crate::comparison::session::{event, event_of, vendor_release, write};
use crate::stream::{kind, Command};

pub fn cases(sink: &mut Sink) {
    for (name, commands) in [pending_already(), both(), beside_touches()].concat() {
        put(sink, Group::ReasonFlags, name, &commands);
    }
    taken_and_raised_again(sink);
}

/// A session with its name.
type Named = (&'static str, Vec<Command>);

fn demount() -> Command {
    event(kind::DEMOUNT)
}

fn reset() -> Command {
    event(kind::LOGICAL_UNIT_RESET)
}

/// Writes of the flagged nexus: each takes a flag, if one is pending.
fn writes(count: usize) -> Vec<Command> {
    vec![write(ASKED, true); count]
}

/// A flag that is pending when a call comes that would raise it.
fn pending_already() -> Vec<Named> {
    let calls = |commands: &[Command]| [commands, &writes(3)].concat();
    vec![
        (
            "pages one after another",
            calls(&[register(ASKED), all(OTHER, false), all(THIRD, false), all(FOURTH, true)]),
        ),
        (
            "a preempt after a page",
            calls(&[register(ASKED), all(OTHER, false), event_of(kind::PREEMPT, THIRD), all(FOURTH, false)]),
        ),
        (
            "a page after an eviction",
            calls(&[local(ASKED, false), kept(9), kept(10), kept(11), local(OTHER, true), all(THIRD, true)]),
        ),
        (
            "vendor events one after another",
            calls(&[
                all(OTHER, false),
                register(ASKED),
                demount(),
                all(THIRD, false),
                event(kind::MICROCODE),
            ]),
        ),
        (
            "vendor events over a set of its own, then over place 0",
            calls(&[local(ASKED, true), all(OTHER, false), vendor_release(1), vendor_release(0)]),
        ),
        (
            "a nexus that isn't registered at first",
            calls(&[all(OTHER, false), register(ASKED), all(THIRD, false), all(FOURTH, false)]),
        ),
    ]
}

/// Both flags, in either order.
fn both() -> Vec<Named> {
    let page_first = || vec![register(ASKED), all(OTHER, false), demount()];
    let event_first = || vec![all(OTHER, false), register(ASKED), demount(), all(THIRD, false)];
    vec![
        ("another nexus's first", [page_first(), writes(3)].concat()),
        ("a vendor event's first", [event_first(), writes(3)].concat()),
        ("one of them raised again", [event_first(), writes(1), vec![all(FOURTH, true)], writes(3)].concat()),
        ("both of a locked nexus", [vec![public(ASKED, true)], page_first(), writes(3)].concat()),
        ("both, reset", [page_first(), vec![reset()], writes(2)].concat()),
    ]
}

/// A flag that each kind of call takes, or a reset, and that is raised again.
fn taken_and_raised_again(sink: &mut Sink) {
    let takers = takers(ASKED).into_iter().map(|(name, command)| (name, vec![command]));
    for (name, taken) in takers.chain([("a reset", vec![reset(), register(ASKED)])]) {
        let start = vec![register(ASKED), all(OTHER, false)];
        let pages = [start.clone(), taken.clone(), vec![all(THIRD, true)], writes(2)].concat();
        put(sink, Group::ReasonFlags, format!("another nexus's, taken by {name}"), &pages);
        let events = [start, writes(1), vec![demount()], taken, vec![all(FOURTH, true)], writes(1)].concat();
        let events = [events, vec![event(kind::MICROCODE)], writes(2)].concat();
        put(sink, Group::ReasonFlags, format!("a vendor event's, taken by {name}"), &events);
    }
}

/// A locked nexus whose set a call touches first, while another call raises the flag that is pending.
fn beside_touches() -> Vec<Named> {
    let lock = || vec![public(ASKED, true)];
    let own = || vec![local(ASKED, true)];
    vec![
        (
            "touched by a page, flag by a later page",
            [lock(), vec![all(OTHER, false)], writes(1), vec![all(THIRD, false)], writes(2)].concat(),
        ),
        (
            "touched by a page, flag by a later event",
            [lock(), vec![all(OTHER, false)], writes(1), vec![demount()], writes(2)].concat(),
        ),
        (
            "touched by an event, flag by a later page",
            [own(), vec![demount()], writes(1), vec![all(OTHER, false)], writes(2)].concat(),
        ),
        (
            "touched by an event, flag by a later event",
            [
                own(),
                vec![demount()],
                writes(1),
                vec![all(OTHER, false)],
                writes(1),
                vec![demount()],
                writes(2),
            ]
            .concat(),
        ),
        (
            "touched while not registered, flag later",
            [lock(), vec![reset(), all(OTHER, false), register(ASKED), all(THIRD, false)], writes(2)]
                .concat(),
        ),
        (
            "touched by an event while not registered, flag later",
            [own(), vec![reset(), demount(), register(ASKED), all(THIRD, false), demount()], writes(3)]
                .concat(),
        ),
        (
            "touched by its own preempt, flag later",
            [own(), vec![event_of(kind::PREEMPT, ASKED)], writes(1), vec![all(OTHER, false)], writes(2)]
                .concat(),
        ),
        ("touched, then reset", [lock(), vec![all(OTHER, false), reset()], writes(2)].concat()),
        ("reset, then touched", [lock(), vec![reset(), all(OTHER, false)], writes(2)].concat()),
        (
            "touched, reset, registered, touched",
            [own(), vec![demount(), reset(), register(ASKED), all(OTHER, true), demount()], writes(3)]
                .concat(),
        ),
    ]
}
