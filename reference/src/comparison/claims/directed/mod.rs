//! Directed recordings with their rates: each file holds those of one idea; then those of the replay's comparison, each
//! at one of the rates in turn.

mod amounts;
mod counts;
mod locks;
mod outcomes;
mod power_ons;
mod rates;
mod rows;
mod wrong_files;

use super::case::{Case, Sink};
use super::rates::RateKind;
use crate::claim::Column;
use crate::codes::{decryption, encryption, scope};
use crate::comparison::page_builder::SetPage;
use crate::comparison::recordings;
use crate::comparison::session::{security_out, write};
use crate::recording::broken_rules;
use crate::stream::Command;

/// Every directed recording with its rate.
pub fn cases(sink: &mut Sink) {
    rows::cases(sink);
    outcomes::cases(sink);
    power_ons::cases(sink);
    locks::cases(sink);
    rates::cases(sink);
    wrong_files::cases(sink);
    counts::cases(sink);
    amounts::cases(sink);
    of_replays(sink);
}

/// The sessions by what decides their writes, with their names.
pub fn sessions() -> Vec<(String, Vec<Command>)> {
    let named = outcomes::sessions().into_iter().chain(power_ons::sessions());
    let named = named.map(|(name, commands)| (name.to_string(), commands));
    named.chain(locks::sessions()).collect()
}

/// The recordings of the replay's comparison: wrong files at rates of each kind in turn, sound ones mostly at rates that
/// are taken.
fn of_replays(sink: &mut Sink) {
    let in_turn = |kinds: &[RateKind]| {
        let most = kinds.iter().map(|kind| kind.rates().len()).max().unwrap_or(0);
        let rounds = (0..most).flat_map(|turn| {
            let rate = move |kind: &RateKind| kind.rates()[turn % kind.rates().len()];
            kinds.iter().map(rate).collect::<Vec<_>>()
        });
        rounds.collect::<Vec<&str>>().into_iter().cycle()
    };
    let [taken, above, no_number] = RateKind::EVERY;
    let mut of_wrong = in_turn(&[taken, above, no_number]);
    let mut of_sound = in_turn(&[taken, taken, taken, above, taken, taken, taken, no_number]);
    for recording in recordings::directed() {
        let is_sound = broken_rules(&recording.file).is_empty();
        let rate = if is_sound { of_sound.next() } else { of_wrong.next() };
        sink(Case { recording, rate: rate.unwrap_or_default().to_string() });
    }
}

/// A page with a scope and an encryption mode, not locked, with a key where the mode asks for one.
fn set(scope: u8, encryption: u8) -> Vec<u8> {
    SetPage { lock: false, ..SetPage::of_modes(scope, encryption, decryption::DISABLE) }.bytes()
}

/// So many writes of a nexus, with and without support in turn.
fn either_way(nexus: u8, count: usize) -> impl Iterator<Item = Command> {
    (0..count).map(move |turn| write(nexus, turn % 2 == 0))
}

/// Writes of a nexus that come to the four columns, so many each: under two LOCAL sets of its own, then, as PUBLIC, under
/// an empty place 0.
fn in_columns(nexus: u8, [encrypted, external, clear, refused]: [usize; 4]) -> Vec<Command> {
    let mut commands = vec![security_out(nexus, set(scope::LOCAL, encryption::ENCRYPT))];
    commands.extend(vec![write(nexus, true); encrypted]);
    commands.extend(vec![write(nexus, false); refused]);
    commands.push(security_out(nexus, set(scope::LOCAL, encryption::EXTERNAL)));
    commands.extend(either_way(nexus, external));
    commands.push(security_out(nexus, SetPage::public(false).bytes()));
    commands.extend(either_way(nexus, clear));
    commands
}

/// Writes that all come to one column: of each nexus so many, in the order told. But for clear ones they are decided by
/// the ALL set that nexus 7 sends.
fn in_one_column(column: Column, writers: impl Iterator<Item = (u8, usize)>) -> Vec<Command> {
    let all = |encryption| vec![security_out(7, set(scope::ALL, encryption))];
    let mut commands = match column {
        Column::Encrypted | Column::Refused => all(encryption::ENCRYPT),
        Column::External => all(encryption::EXTERNAL),
        Column::Clear => Vec::new(),
    };
    for (nexus, count) in writers {
        match column {
            Column::Encrypted => commands.extend(vec![write(nexus, true); count]),
            Column::Refused => commands.extend(vec![write(nexus, false); count]),
            Column::External | Column::Clear => commands.extend(either_way(nexus, count)),
        }
    }
    commands
}
