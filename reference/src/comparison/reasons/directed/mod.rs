//! Directed recordings, each file with those of one idea; nearly all are asked for the reasons of every write that can be
//! tried, so that each of their prefixes counts.

mod answers;
mod flags;
pub mod limits;
mod locks;
mod power_ons;
mod sessions;
mod touches;
mod wrong_files;

use super::case::Sink;
use crate::codes::{decryption, encryption, scope};
use crate::comparison::page_builder::SetPage;
use crate::comparison::session::{read, security_in, security_out, write};
use crate::stream::Command;

/// Every directed recording with what is asked about it, the cheapest first.
pub fn cases(sink: &mut Sink) {
    limits::cases(sink);
    wrong_files::cases(sink);
    answers::cases(sink);
    touches::cases(sink);
    locks::cases(sink);
    flags::cases(sink);
    power_ons::cases(sink);
    sessions::cases(sink);
    limits::long_ones(sink);
}

/// The nexus that is locked or flagged in most sessions, and three others: a page of one that is flagged itself would be
/// refused.
const ASKED: u8 = 3;
const OTHER: u8 = 6;
const THIRD: u8 = 7;
const FOURTH: u8 = 8;

/// A nexus's LOCAL set, or its ALL set, that every event it can meet releases.
fn local(nexus: u8, lock: bool) -> Command {
    security_out(nexus, SetPage::releasable(scope::LOCAL, lock).bytes())
}

fn all(nexus: u8, lock: bool) -> Command {
    security_out(nexus, SetPage::releasable(scope::ALL, lock).bytes())
}

/// An ALL set that has no key.
fn without_key(nexus: u8) -> Command {
    let page = SetPage::of_modes(scope::ALL, encryption::EXTERNAL, decryption::DISABLE);
    security_out(nexus, page.bytes())
}

/// A locked LOCAL set that only microcode and a vendor release take away.
fn kept(nexus: u8) -> Command {
    security_out(nexus, SetPage { ckod: false, ..SetPage::k() }.bytes())
}

fn public(nexus: u8, lock: bool) -> Command {
    security_out(nexus, SetPage::public(lock).bytes())
}

/// A supplemental key for a releasable set.
fn supplemental(nexus: u8, scope: u8) -> Command {
    security_out(nexus, SetPage::supplemental(scope, decryption::DECRYPT, 7).bytes())
}

/// A call that registers its nexus.
fn register(nexus: u8) -> Command {
    security_in(nexus, 0x0020, 0)
}

/// Calls of the nexus that each take a pending flag, with their names.
fn takers(nexus: u8) -> [(&'static str, Command); 4] {
    [
        ("IN", register(nexus)),
        ("OUT", local(nexus, true)),
        ("a write", write(nexus, true)),
        ("a read", read(nexus, 1, 0)),
    ]
}
