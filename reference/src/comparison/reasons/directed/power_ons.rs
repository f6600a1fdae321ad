//! Power-on before the lock, between it and a touch, and after both: the positions stay those of the whole recording.

use super::{all, local, public, register, ASKED, OTHER, THIRD};
use crate::comparison::reasons::case::{put, Sink};
use crate::comparison::recordings::case::Group;
use crate::comparison::session::{event, power_on, vendor_release, write};
use crate::stream::{kind, Command};

pub fn cases(sink: &mut Sink) {
    let on = || vec![power_on()];
    let local_lock = || vec![local(ASKED, true)];
    let public_lock = || vec![public(ASKED, true)];
    let demounted = || vec![event(kind::DEMOUNT), write(ASKED, true), write(ASKED, true)];
    let replaced = || vec![all(OTHER, true), write(ASKED, true), write(ASKED, true)];
    let flagged = || vec![register(ASKED), all(OTHER, false)];
    let other_kind = || vec![vendor_release(1), write(ASKED, true), write(ASKED, true)];
    let sessions: [(&str, Vec<Command>); 10] = [
        ("at the start", [on(), local_lock(), demounted()].concat()),
        ("at the end", [local_lock(), demounted(), on()].concat()),
        ("between lock and touch", [local_lock(), on(), demounted(), replaced()].concat()),
        ("between two locks", [local_lock(), demounted(), on(), local_lock(), other_kind()].concat()),
        ("between two locks over place 0", {
            [public_lock(), replaced(), on(), public_lock(), vec![all(THIRD, true)], demounted()].concat()
        }),
        ("twice", [local_lock(), on(), demounted(), on(), local_lock(), other_kind()].concat()),
        ("in the middle of flags", [flagged(), on(), flagged(), demounted()].concat()),
        ("after flags", [flagged(), vec![event(kind::DEMOUNT)], on(), vec![write(ASKED, true)]].concat()),
        (
            "touched before it",
            [vec![all(OTHER, false)], on(), public_lock(), vec![all(THIRD, false)]].concat(),
        ),
        ("nothing else", vec![power_on(); 3]),
    ];
    for (name, commands) in sessions {
        put(sink, Group::ReasonPowerOns, name, &commands);
    }
}
