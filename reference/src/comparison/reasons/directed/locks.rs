//! Which page is the lock: locks that a later page renews or moves, pages that are no lock, touches before it, several
//! touches after it.

use super::{all, kept, local, public, register, supplemental, takers, ASKED, FOURTH, OTHER, THIRD};
use crate::codes::scope;
use crate::comparison::page_builder::SetPage;
use crate::comparison::reasons::case::{put, Sink};
use crate::comparison::recordings::case::Group;
use crate::comparison::session::{event, event_of, security_out, vendor_release, write};
use crate::stream::{kind, Command};

pub fn cases(sink: &mut Sink) {
    for (name, commands) in [renewed(), supplementals(), touched()].concat() {
        put(sink, Group::ReasonLocks, name, &commands);
    }
    refused_pages(sink);
}

/// A session with its name.
type Named = (&'static str, Vec<Command>);

/// So many writes of the locked nexus: each takes a flag, if one is pending.
fn writes(count: usize) -> Vec<Command> {
    vec![write(ASKED, true); count]
}

/// Locks that a later page of the nexus renews, moves to another place, or takes away.
fn renewed() -> Vec<Named> {
    let demount = || vec![event(kind::DEMOUNT)];
    let lock = || vec![local(ASKED, true)];
    let over_default = || vec![public(ASKED, true)];
    let touch = |nexus| vec![all(nexus, false)];
    let with_sdk_bit = || vec![security_out(ASKED, SetPage { sdk: true, ..SetPage::public(true) }.bytes())];
    vec![
        ("renewed", [lock(), lock(), demount(), writes(2)].concat()),
        ("renewed after a touch", [lock(), demount(), writes(2), lock(), demount(), writes(2)].concat()),
        (
            "renewed by PUBLIC after a touch",
            [over_default(), touch(OTHER), writes(2), over_default(), touch(THIRD), writes(2)].concat(),
        ),
        (
            "renewed by PUBLIC with the bit SDK",
            [over_default(), touch(OTHER), writes(2), with_sdk_bit(), touch(THIRD), writes(2)].concat(),
        ),
        (
            "moved to place 0",
            [lock(), over_default(), vec![local(OTHER, true), vendor_release(1)], touch(THIRD), writes(2)]
                .concat(),
        ),
        (
            "moved from place 0",
            [vec![all(ASKED, true)], lock(), touch(OTHER), vec![vendor_release(0)], demount(), writes(2)]
                .concat(),
        ),
        (
            "moved between places",
            [
                vec![kept(9)],
                lock(),
                over_default(),
                vec![local(THIRD, true)],
                lock(),
                touch(OTHER),
                demount(),
                writes(2),
            ]
            .concat(),
        ),
        (
            "taken away",
            [
                lock(),
                vec![local(ASKED, false)],
                demount(),
                writes(2),
                over_default(),
                touch(OTHER),
                writes(2),
            ]
            .concat(),
        ),
        ("taken away after a touch", [lock(), demount(), writes(2), vec![public(ASKED, false)]].concat()),
        (
            "of another nexus",
            [over_default(), touch(OTHER), writes(1), vec![public(OTHER, true)], touch(THIRD), writes(1)]
                .concat(),
        ),
    ]
}

/// Supplemental keys after the lock, of the nexus and of the one whose set it uses: no lock, and no touch.
fn supplementals() -> Vec<Named> {
    let local_keys = |count| vec![supplemental(ASKED, scope::LOCAL); count];
    vec![
        (
            "a supplemental key",
            [vec![local(ASKED, true)], local_keys(1), vec![event(kind::DEMOUNT)], writes(2)].concat(),
        ),
        (
            "a fifth supplemental key",
            [vec![local(ASKED, true)], local_keys(5), vec![event(kind::MICROCODE)], writes(2)].concat(),
        ),
        (
            "a supplemental key for all",
            [vec![all(ASKED, true), supplemental(ASKED, scope::ALL), all(OTHER, true)], writes(2)].concat(),
        ),
        (
            "a supplemental key of another",
            [
                vec![all(OTHER, true), public(ASKED, true), supplemental(OTHER, scope::ALL)],
                writes(1),
                vec![all(OTHER, true), supplemental(OTHER, scope::ALL)],
                writes(2),
            ]
            .concat(),
        ),
    ]
}

/// Touches before the lock, several after it, and calls after it that act on other places or on none.
fn touched() -> Vec<Named> {
    let before = || vec![all(OTHER, false), event(kind::DEMOUNT), all(THIRD, false), all(FOURTH, true)];
    let lock = || vec![public(ASKED, true)];
    vec![
        ("touched before it", [before(), lock(), vec![event(kind::MICROCODE)], writes(2)].concat()),
        (
            "touched just before it, and after it by the same kind",
            [vec![all(OTHER, false)], lock(), vec![all(OTHER, false)], writes(2)].concat(),
        ),
        ("touched before it, and not after it", [before(), lock(), writes(2)].concat()),
        ("touched four times after it", [lock(), before(), writes(3)].concat()),
        (
            "touched by a release, then established, then released",
            [
                vec![
                    local(ASKED, true),
                    vendor_release(1),
                    local(OTHER, true),
                    event_of(kind::PREEMPT, THIRD),
                ],
                writes(3),
                vec![local(THIRD, true), event(kind::DEMOUNT)],
                writes(2),
            ]
            .concat(),
        ),
        (
            "other places touched first",
            [
                vec![kept(10), local(ASKED, true), kept(11), all(OTHER, false), vendor_release(1)],
                vec![vendor_release(0), vendor_release(3), vendor_release(4), local(THIRD, true)],
                vec![vendor_release(2)],
                writes(2),
            ]
            .concat(),
        ),
        (
            "other places touched by the call that touches it",
            [vec![kept(10), all(OTHER, false), local(ASKED, true), event(kind::MICROCODE)], writes(2)]
                .concat(),
        ),
        (
            "a LOCAL set of another that becomes its ALL set",
            [vec![local(OTHER, true)], lock(), vec![all(OTHER, true), local(OTHER, true)], writes(2)]
                .concat(),
        ),
        ("nearly all nexuses locked over one set", {
            let mut commands = vec![all(OTHER, false)];
            commands.extend((0..15).filter(|&nexus| nexus != OTHER).map(|nexus| public(nexus, true)));
            commands.extend([event(kind::DEVICE_RESERVATION_LOSS), all(15, false)]);
            commands
        }),
        (
            "11 before 12",
            [lock(), vec![all(OTHER, false)], writes(1), vec![write(ASKED, false)], writes(1)].concat(),
        ),
    ]
}

/// A page that is refused, by each answer, after the lock: before a touch, and between two of them.
fn refused_pages(sink: &mut Sink) {
    let four_locked = || (10..14).map(kept).collect::<Vec<_>>();
    let other_code = Command { argument: 0x0011, ..local(ASKED, true) };
    let cut = security_out(ASKED, SetPage::k().bytes()[..51].to_vec());
    let wrong_field = security_out(ASKED, SetPage { scope: 3, ..SetPage::k() }.bytes());
    let pages = [
        ("6", Vec::new(), other_code),
        ("7", Vec::new(), cut),
        ("8", Vec::new(), wrong_field),
        ("8, supplemental", Vec::new(), supplemental(ASKED, scope::LOCAL)),
        ("10", four_locked(), local(ASKED, true)),
    ];
    for (answer, start, page) in pages {
        let lock = [start, vec![public(ASKED, true)]].concat();
        let between = vec![all(OTHER, false), write(ASKED, true), page.clone(), all(THIRD, false)];
        let commands = [lock, vec![page], between, writes(2)].concat();
        put(sink, Group::ReasonLocks, format!("a page that is refused with {answer}"), &commands);
    }
    for (name, touch) in [("3", all(OTHER, false)), ("4", event(kind::DEMOUNT))] {
        let start = vec![all(THIRD, false), public(ASKED, true), touch.clone()];
        let commands = [start, vec![public(ASKED, true), all(OTHER, true)], writes(3)].concat();
        put(sink, Group::ReasonLocks, format!("a page that is refused with {name}"), &commands);
        for (taker, command) in takers(ASKED) {
            let commands = [vec![register(ASKED), local(ASKED, true), event(kind::DEMOUNT)], vec![command]];
            let commands = [commands.concat(), vec![all(OTHER, true), touch.clone()], writes(3)].concat();
            put(sink, Group::ReasonLocks, format!("touched by {name} after {taker} took a flag"), &commands);
        }
    }
}
