//! Each nexus in each LOCAL place, and each kind of call that takes it away from there; after it every nexus that place 0
//! serves is told of a change by an ALL page and by a device reservation loss.

use crate::codes::scope;
use crate::comparison::page_builder::SetPage;
use crate::comparison::session::{
    event, event_of, power_on, security_in, security_out, serves, vendor_release, Session, Sink,
};
use crate::comparison::word_cases::By;
use crate::sizes::{NEXUSES, PLACES};
use crate::stream::{kind, Command};

pub fn sessions(sink: &mut Sink) {
    for turn in 0..NEXUSES as u8 {
        By::OF_RELEASE.into_iter().for_each(|by| session(turn, by, sink));
    }
}

/// Four nexuses in a row take places 1 to 4, and lose them; then a fifth sends ALL.
fn session(turn: u8, by: By, sink: &mut Sink) {
    let nexus = |step: u8| (turn + step) % NEXUSES as u8;
    let mut commands = vec![power_on()];
    for step in 0..4 {
        commands.push(security_out(nexus(step), SetPage::releasable(scope::LOCAL, false).bytes()));
    }
    for place in 1..PLACES as u8 {
        let is_about_all = matches!(by, By::Event(kind::DEMOUNT | kind::PREEMPT | kind::MICROCODE));
        if !is_about_all || place == 1 {
            commands.push(leaving(by, place, nexus(place - 1), nexus(place + 3)));
        }
        commands.extend([serves(u16::from(place)), serves(0)]);
    }
    commands.extend((0..NEXUSES as u8).map(|nexus| security_in(nexus, 0x0020, 0)));
    commands.push(security_out(nexus(9), SetPage::releasable(scope::ALL, false).bytes()));
    commands.extend([event(kind::DEVICE_RESERVATION_LOSS), serves(0)]);
    sink(Session { name: "each nexus leaves each place".to_string(), commands });
}

/// The call by which an owner leaves its place; another nexus evicts it with a locked set, or preempts.
fn leaving(by: By, place: u8, owner: u8, other: u8) -> Command {
    match by {
        By::PublicPage => security_out(owner, SetPage::public(true).bytes()),
        By::AllPage => security_out(owner, SetPage::all().bytes()),
        By::LocalPage => security_out(other, SetPage::k().bytes()),
        By::Event(kind::VENDOR_RELEASE) => vendor_release(u16::from(place)),
        By::Event(kind::NEXUS_RESERVATION_LOSS) => event_of(kind::NEXUS_RESERVATION_LOSS, owner),
        By::Event(kind) => event_of(kind, other),
    }
}
