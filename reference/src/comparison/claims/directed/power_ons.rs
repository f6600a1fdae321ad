//! Writes before, between and after power-on events, which all count; two sessions in one.

use super::{in_columns, set};
use crate::codes::{encryption, scope};
use crate::comparison::claims::case::{put, Sink};
use crate::comparison::page_builder::SetPage;
use crate::comparison::recordings::case::Group;
use crate::comparison::session::{event, power_on, security_in, security_out, write};
use crate::stream::{kind, Command};

pub fn cases(sink: &mut Sink) {
    for (name, commands) in sessions() {
        put(sink, Group::ClaimPowerOns, name, &commands, "250");
    }
}

/// The sessions with their names.
pub fn sessions() -> Vec<(&'static str, Vec<Command>)> {
    let on = || vec![power_on()];
    let first = || in_columns(3, [1, 2, 3, 4]);
    let second = || in_columns(3, [5, 7, 6, 8]);
    let third = || in_columns(12, [9, 1, 4, 2]);
    let sessions = [
        ("before", [first(), on()].concat()),
        ("after", [on(), first()].concat()),
        ("between", [on(), first(), on()].concat()),
        ("before and after", [first(), on(), second()].concat()),
        ("before and after, another nexus", [first(), on(), third()].concat()),
        ("before, between and after", [first(), on(), second(), on(), third()].concat()),
        ("power-on twice", [second(), on(), on(), first()].concat()),
        ("many power-ons", vec![[on(), in_columns(9, [1, 1, 1, 1])].concat(); 20].concat()),
        ("nothing but power-on", vec![power_on(); 3]),
    ];
    sessions.into_iter().chain(taken_away()).collect()
}

/// Power-on takes sets, locks and flags away, so that the same write comes to another column.
fn taken_away() -> [(&'static str, Vec<Command>); 5] {
    let writes = |supported| vec![write(3, supported); 2];
    let all = |encryption| security_out(6, set(scope::ALL, encryption));
    let lock = || security_out(3, SetPage::k().bytes());
    [
        ("a set", [vec![lock()], writes(true), vec![power_on()], writes(true)].concat()),
        (
            "a set that isn't supported",
            [vec![lock()], writes(false), vec![power_on()], writes(false)].concat(),
        ),
        (
            "a lock",
            [vec![lock(), event(kind::DEMOUNT)], writes(true), vec![power_on()], writes(true)].concat(),
        ),
        ("a flag", {
            let flagged = vec![security_in(3, 0x0020, 0), all(encryption::ENCRYPT)];
            [flagged.clone(), writes(true), flagged, vec![power_on()], writes(true)].concat()
        }),
        ("a set for another", {
            let other = vec![power_on(), all(encryption::EXTERNAL)];
            [vec![all(encryption::ENCRYPT)], writes(true), other, writes(true)].concat()
        }),
    ]
}
