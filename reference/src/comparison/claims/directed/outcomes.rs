//! Writes by what decides them: mode and support, pending flags, the set in use; sessions without a write.

use super::{either_way, set};
use crate::codes::{decryption, encryption, scope};
use crate::comparison::claims::case::{put, put_file, Sink};
use crate::comparison::page_builder::SetPage;
use crate::comparison::recordings::builder::{every_kind, file_of, no_events};
use crate::comparison::recordings::case::Group;
use crate::comparison::session::{event, event_of, read, security_in, security_out, vendor_release, write};
use crate::names::{name_of, ENCRYPTION_MODES, SCOPES};
use crate::stream::{kind, Command};

pub fn cases(sink: &mut Sink) {
    modes_and_support(sink);
    modes_and_places(sink);
    for (name, commands) in sessions() {
        put(sink, Group::ClaimOutcomes, name, &commands, "250");
    }
    without_writes(sink);
}

/// Each mode, of a set of its own and of one for all, with and without support: 12 for ENCRYPT without it alone.
fn modes_and_support(sink: &mut Sink) {
    for scope in [scope::LOCAL, scope::ALL] {
        for encryption in encryption::DISABLE..=encryption::ENCRYPT {
            for supported in [false, true] {
                let mut commands = vec![security_out(3, set(scope, encryption))];
                commands.extend(vec![write(3, supported); 2]);
                commands.push(write(4, supported));
                let words = [name_of(&SCOPES, scope), name_of(&ENCRYPTION_MODES, encryption)];
                let words = words.map(|word| word.unwrap_or_default()).join(" ");
                let support = if supported { "supported" } else { "not supported" };
                put(sink, Group::ClaimOutcomes, format!("{words}, {support}"), &commands, "250");
            }
        }
    }
    let mut commands = Vec::new();
    for encryption in [encryption::ENCRYPT, encryption::EXTERNAL, encryption::DISABLE, encryption::ENCRYPT] {
        commands.push(security_out(3, set(scope::LOCAL, encryption)));
        commands.extend(either_way(3, 5));
    }
    put(sink, Group::ClaimOutcomes, "the modes in turn", &commands, "250");
}

/// Each mode in each of the places 1 to 4; then nexus 0 has place 0, with the mode too.
fn modes_and_places(sink: &mut Sink) {
    for encryption in encryption::DISABLE..=encryption::ENCRYPT {
        let mut commands: Vec<Command> =
            (1..=4).map(|nexus| security_out(nexus, set(scope::LOCAL, encryption))).collect();
        commands.push(security_out(0, set(scope::ALL, encryption)));
        commands.extend((0..=5).flat_map(|nexus| either_way(nexus, usize::from(nexus) + 2)));
        let mode = name_of(&ENCRYPTION_MODES, encryption).unwrap_or_default();
        put(sink, Group::ClaimOutcomes, format!("{mode} in every place"), &commands, "250");
    }
}

/// A session with its name.
pub type Named = (&'static str, Vec<Command>);

/// The sessions with their names.
pub fn sessions() -> Vec<Named> {
    [pending_flags(), sets_in_use()].concat()
}

/// Writes that aren't carried out, once for each flag; other calls that take a flag away.
fn pending_flags() -> Vec<Named> {
    let register = || security_in(5, 0x0020, 0);
    let all = || security_out(6, SetPage::all().bytes());
    let writes = |count| vec![write(5, true); count];
    let flagged = |mut commands: Vec<Command>, more: Vec<Command>| {
        commands.extend(more);
        commands
    };
    let both = vec![register(), all(), event(kind::DEMOUNT)];
    vec![
        ("another nexus's flag", flagged(vec![register(), all()], writes(3))),
        (
            "a vendor event's flag",
            flagged(vec![register(), all(), write(5, true), event(kind::DEMOUNT)], writes(3)),
        ),
        ("both flags", flagged(both.clone(), writes(4))),
        ("both flags, with a lock", {
            let lock = security_out(5, SetPage::public(true).bytes());
            flagged([vec![lock], both.clone()].concat(), writes(4))
        }),
        ("a flag that IN takes", flagged([both.clone(), vec![register()]].concat(), writes(2))),
        ("a flag that a read takes", flagged([both.clone(), vec![read(5, 0, 255)]].concat(), writes(2))),
        ("a flag that OUT takes", {
            let out = security_out(5, SetPage::k().bytes());
            flagged([both.clone(), vec![out]].concat(), writes(2))
        }),
        (
            "flags that a reset takes",
            flagged([both, vec![event(kind::LOGICAL_UNIT_RESET)]].concat(), writes(2)),
        ),
        ("nobody registered, no flag", flagged(vec![write(5, true), all()], writes(2))),
    ]
}

/// Sets that come and go between writes.
fn sets_in_use() -> Vec<Named> {
    let local = |nexus, page: SetPage| security_out(nexus, page.bytes());
    let each = |nexuses: std::ops::Range<u8>| nexuses.flat_map(|nexus| either_way(nexus, 2));
    let supplemental = || local(3, SetPage::supplemental(scope::LOCAL, decryption::DECRYPT, 7));
    let mut fifth_takes_a_place: Vec<Command> =
        (0..5).map(|nexus| local(nexus, SetPage::k_unlocked())).collect();
    fifth_takes_a_place.extend(each(0..5));
    fifth_takes_a_place.extend(each(0..5));
    let mut fifth_finds_none: Vec<Command> = (0..5).map(|nexus| local(nexus, SetPage::k())).collect();
    fifth_finds_none.extend(each(0..6));
    let mut keys = vec![local(3, SetPage::k())];
    keys.extend((0..5).flat_map(|_| [supplemental(), write(3, true)]));
    let own_clear = vec![
        local(6, SetPage::all()),
        security_out(3, set(scope::LOCAL, encryption::DISABLE)),
        write(3, true),
        write(4, true),
        vendor_release(1),
        write(3, true),
        write(3, true),
    ];
    let refused_page = vec![
        security_out(3, set(scope::LOCAL, encryption::EXTERNAL)),
        security_out(3, SetPage::k().bytes()[..51].to_vec()),
        write(3, true),
        local(3, SetPage { scope: 3, ..SetPage::k() }),
        write(3, false),
    ];
    vec![
        ("a fifth LOCAL set takes a place", fifth_takes_a_place),
        ("a fifth LOCAL set finds no place", fifth_finds_none),
        ("supplemental keys", keys),
        ("a set of its own that is clear", own_clear),
        ("refused pages", refused_page),
    ]
}

/// No event at all; every kind of event but writes; other calls that are refused.
fn without_writes(sink: &mut Sink) {
    put_file(sink, Group::ClaimOutcomes, "no events", no_events().bytes(), "250");
    let mut recording = every_kind();
    recording.events.retain(|event| event.kind != kind::WRITE);
    let file = file_of(recording.events, recording.page_bytes);
    put_file(sink, Group::ClaimOutcomes, "every kind but writes", file, "250");
    let k = SetPage::k().bytes();
    let refused = [
        security_out(3, k.clone()),
        security_in(3, 0xFFFF, 0),
        security_out(3, k[..51].to_vec()),
        read(3, 0, 255),
        read(3, 1, 255),
        read(3, 3, 0),
        read(16, 1, 0),
        security_out(16, k),
        vendor_release(5),
        event_of(kind::PREEMPT, 16),
    ];
    put(sink, Group::ClaimOutcomes, "other calls that are refused", &refused, "250");
    let beside = [&refused[..], &[write(3, true)]].concat();
    put(sink, Group::ClaimOutcomes, "a write beside other calls that are refused", &beside, "250");
}
