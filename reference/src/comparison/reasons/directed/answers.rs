//! Each answer: sets of each mode in each place, writes that find each refusal, no events at all.

use super::{all, kept, local, public, register, supplemental, ASKED, OTHER};
use crate::codes::{decryption, encryption, scope};
use crate::comparison::page_builder::SetPage;
use crate::comparison::reasons::case::{put, Sink};
use crate::comparison::recordings::builder::every_kind;
use crate::comparison::recordings::case::Group;
use crate::comparison::session::{event, power_on, security_out, write};
use crate::names::{name_of, ENCRYPTION_MODES};
use crate::stream::{kind, Command};

pub fn cases(sink: &mut Sink) {
    put(sink, Group::ReasonAnswers, "no events", &[]);
    modes_and_places(sink);
    for (name, commands) in examples().into_iter().chain(refused_writes()) {
        put(sink, Group::ReasonAnswers, name, &commands);
    }
    let recording = every_kind();
    let commands: Vec<Command> = recording.events.iter().map(|event| recording.command(event)).collect();
    put(sink, Group::ReasonAnswers, "every kind", &commands);
}

/// A set of each mode in each place, for all nexuses or one of its own; then place 0 is empty again.
fn modes_and_places(sink: &mut Sink) {
    for encryption in encryption::DISABLE..=encryption::ENCRYPT {
        let page =
            |scope| SetPage { lock: false, ..SetPage::of_modes(scope, encryption, decryption::DISABLE) };
        let mut commands: Vec<Command> =
            (1..=4).map(|nexus| security_out(nexus, page(scope::LOCAL).bytes())).collect();
        commands.push(security_out(0, page(scope::ALL).bytes()));
        commands.extend([write(5, true), write(5, false), write(2, false), event(kind::DEMOUNT)]);
        let mode = name_of(&ENCRYPTION_MODES, encryption).unwrap_or_default();
        put(sink, Group::ReasonAnswers, format!("{mode} in every place"), &commands);
    }
}

/// P4 to P9 of 01.
fn examples() -> [(&'static str, Vec<Command>); 6] {
    let k = |nexus| security_out(nexus, SetPage::k().bytes());
    let unlocked = |nexus| security_out(nexus, SetPage::k_unlocked().bytes());
    let written = |nexus| [write(nexus, true), write(nexus, true)];
    [
        ("P4", vec![power_on(), k(3), write(3, true), write(3, false)]),
        ("P5", [(0..=4).map(unlocked).collect(), written(0).to_vec()].concat()),
        ("P6", (0..=4).map(k).collect()),
        ("P7", [vec![power_on(), k(3), event(kind::DEMOUNT)], written(3).to_vec()].concat()),
        (
            "P8",
            [vec![public(5, true), security_out(6, SetPage::all().bytes())], written(5).to_vec()].concat(),
        ),
        ("P9", [vec![k(3)], vec![supplemental(3, scope::LOCAL); 5], written(3).to_vec()].concat()),
    ]
}

/// Writes that are refused by each answer, among others that pass.
fn refused_writes() -> [(&'static str, Vec<Command>); 4] {
    let above = [16, 17, 31, 128, 255].map(|nexus| write(nexus, nexus % 2 == 0));
    let either = |nexus| vec![write(nexus, true), write(nexus, false)];
    let locked = vec![register(4), local(ASKED, true), kept(5), event(kind::DEMOUNT)];
    [
        ("nexuses above 15", [vec![all(OTHER, false)], above.to_vec(), either(ASKED)].concat()),
        ("writes of nexuses above 15 alone", above.to_vec()),
        ("writes that all pass", [either(0), vec![local(1, true)], vec![write(1, true); 3]].concat()),
        (
            "each answer",
            [locked, either(ASKED), either(ASKED), either(5), either(4), vec![write(16, true)]].concat(),
        ),
    ]
}
