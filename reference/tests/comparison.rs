//! The comparison program against the reference drive, and against drives with a fault. The faulty drive is
//! this program itself, started with `--fault NAME`; it answers by the library and then spoils the answer or
//! the record.

#![forbid(unsafe_code)]

#[path = "support/failures.rs"]
mod failures;
#[path = "support/wrong_batchers.rs"]
mod wrong_batchers;
#[path = "support/wrong_faulty_bytes.rs"]
mod wrong_faulty_bytes;
#[path = "support/wrong_places.rs"]
mod wrong_places;
#[path = "support/wrong_words.rs"]
mod wrong_words;

use reference::codes::{ceem, decryption, encryption, scope};
use reference::comparison::session;
use reference::record::{Nexus, Record, Set};
use reference::record_bytes;
use reference::stream::{kind, Command, Drive, Reply, LENT_FILL};
use std::io::{self, Write};
use std::process::{Command as Program, ExitCode};
use std::thread;
use wrong_batchers::BATCH_FAULTS;
use wrong_faulty_bytes::FAULTY_BYTE_FAULTS;
use wrong_places::PLACE_FAULTS;
use wrong_words::WORD_FAULTS;

/// What a fault sees and spoils: the command, the record before it, the reply, and the record after it.
struct Moment<'parts> {
    command: &'parts Command,
    before: &'parts Record,
    reply: &'parts mut Reply,
    after: &'parts mut Record,
}

/// A name, what the fault does, and the longest short session it may leave.
type Fault = (&'static str, fn(&mut Moment), usize);

/// Faults, among them 01's "Errors that look right".
const FAULTS: [Fault; 18] = [
    ("counting-per-place", counting_per_place, 5),
    ("every-mode-encrypted", every_mode_encrypted, 4),
    ("registering-after-success", registering_after_success, 3),
    ("unlocking-at-release", unlocking_at_release, 4),
    ("checking-public-reserved", checking_public_reserved, 3),
    ("flag-for-sender", flag_for_sender, 4),
    ("no-wrap", no_wrap, 4),
    ("keeps-supplemental-keys", keeps_supplemental_keys, 5),
    ("highest-unlocked-place", highest_unlocked_place, 6),
    ("pending-carried-out", pending_swallowed, 4),
    ("status-takes-control-bits", status_takes_control_bits, 3),
    ("reads-beyond-buffer", fills_whole_buffer, 3),
    ("sense-of-9", sense_of_9, 7),
    ("load-keeps-lock", load_keeps_lock, 3),
    ("number-alone-flags", number_alone_flags, 4),
    ("rdmc-under-external", rdmc_under_external, 3),
    ("ends-at-microcode", ends_at_microcode, 3),
    ("hangs-at-preempt", hangs_at_preempt, 3),
];

/// The wrong drives that 02's request 1 names; the directed sessions are to find them.
const READ_FAULTS: [Fault; 5] = [
    ("lock-stops-reads", lock_stops_reads, 3),
    ("15-before-14", fifteen_before_fourteen, 3),
    ("raw-for-plain", raw_for_plain, 3),
    ("key-above-count-taken", key_above_count_taken, 3),
    ("mixed-refuses-plain", mixed_refuses_plain, 3),
];

/// Wrong drives around 02's request 2; the directed sessions are to find them.
const CEEM_FAULTS: [Fault; 9] = [
    ("ceem-10b-alone", ceem_10b_alone, 2),
    ("ceem-11b-alone", ceem_11b_alone, 2),
    ("ceem-of-local-alone", ceem_of_local_alone, 2),
    ("ceem-of-public", ceem_of_public, 2),
    ("ceem-of-sdk-1", ceem_of_sdk_1, 2),
    ("ceem-of-sdk-1-with-disable", ceem_of_sdk_1_with_disable, 2),
    ("ceem-with-raw", ceem_with_raw, 2),
    ("ceem-with-encryption-disable", ceem_with_encryption_disable, 2),
    ("held-set-not-well-formed", held_set_not_well_formed, 2),
];

/// A released place takes its own number plus one.
fn counting_per_place(moment: &mut Moment) {
    for (before, after) in moment.before.places.iter().zip(&mut moment.after.places) {
        if before.is_used() && !after.is_used() && moment.command.kind == kind::DEMOUNT {
            after.number = before.number.wrapping_add(1);
        }
    }
}

/// Every mode but DISABLE is called encrypted.
fn every_mode_encrypted(moment: &mut Moment) {
    if moment.command.kind == kind::WRITE && moment.reply.number == 0 && moment.reply.data[0] == 1 {
        moment.reply.data[0] = 2;
    }
}

/// A refused page registers nobody.
fn registering_after_success(moment: &mut Moment) {
    if matches!(moment.reply.number, 6..=10) && matches!(moment.command.kind, kind::IN | kind::OUT) {
        *moment.after = moment.before.clone();
    }
}

/// A nexus loses its lock with its set.
fn unlocking_at_release(moment: &mut Moment) {
    for (before, after) in moment.before.nexuses.iter().zip(&mut moment.after.nexuses) {
        let released = before.scope != scope::PUBLIC && after.scope == scope::PUBLIC;
        if released && matches!(moment.command.kind, kind::DEMOUNT..=kind::VENDOR_RELEASE) {
            after.lock = false;
        }
    }
}

/// A PUBLIC page's reserved bytes are checked.
fn checking_public_reserved(moment: &mut Moment) {
    let page = &moment.command.data;
    if moment.command.kind != kind::OUT || moment.reply.number != 0 || page[4] >> 5 != 0 {
        return;
    }
    if let Some(byte) = (11..18).find(|&byte| page[byte] != 0) {
        refuse(moment, 8, [5, 0x26, 0]);
        tell(moment, byte);
    }
}

/// The preemptor is flagged too.
fn flag_for_sender(moment: &mut Moment) {
    if moment.command.kind == kind::PREEMPT && moment.reply.number == 0 {
        let nexus = usize::from(moment.command.nexus);
        let changed = moment.before.selected_place(nexus) != moment.after.selected_place(nexus);
        if changed && moment.before.nexuses[nexus].registered {
            moment.after.nexuses[nexus].changed_by_another_nexus = true;
        }
    }
}

/// The counter stays at its largest value.
fn no_wrap(moment: &mut Moment) {
    if moment.after.counter < moment.before.counter && moment.command.kind == kind::OUT {
        moment.after.counter = u32::MAX;
    }
}

/// A set that is replaced keeps its supplemental keys.
fn keeps_supplemental_keys(moment: &mut Moment) {
    let page = &moment.command.data;
    if moment.command.kind == kind::OUT && moment.reply.number == 0 && page[5] & 8 == 0 {
        for (before, after) in moment.before.places.iter().zip(&mut moment.after.places) {
            if after.is_used() && before.is_used() && before.owner == after.owner {
                after.supplemental_count = before.supplemental_count;
                after.supplemental_keys = before.supplemental_keys;
            }
        }
    }
}

/// A LOCAL set goes to the highest place whose owner has lock 0.
fn highest_unlocked_place(moment: &mut Moment) {
    let changed = (1..5).find(|&place| {
        moment.before.places[place].is_used()
            && moment.before.places[place].owner != moment.after.places[place].owner
    });
    let (Some(place), kind::OUT) = (changed, moment.command.kind) else { return };
    let unlocked = |&place: &usize| {
        let owner = usize::from(moment.before.places[place].owner);
        moment.before.places[place].is_used() && !moment.before.nexuses[owner].lock
    };
    if let Some(highest) = (place + 1..5).rev().find(unlocked) {
        moment.after.places.swap(place, highest);
        moment.after.put_words_right();
    }
}

/// Two pending flags go at once.
fn pending_swallowed(moment: &mut Moment) {
    if moment.reply.number == 3 {
        moment.after.nexuses[usize::from(moment.command.nexus)].changed_by_vendor_event = false;
    }
}

/// The status reader takes a page with control bits.
fn status_takes_control_bits(moment: &mut Moment) {
    let page = &moment.command.data;
    if moment.command.kind == kind::READ_STATUS && moment.reply.number == 8 && page[12] & 0xF8 == 0x40 {
        moment.reply.number = 0;
        moment.reply.sense = [0; 3];
    }
}

/// Bytes beyond the page are zeroed.
fn fills_whole_buffer(moment: &mut Moment) {
    if moment.command.kind == kind::IN && moment.reply.number == 0 {
        let length = usize::from(u16::from_be_bytes([moment.reply.data[0], moment.reply.data[1]]));
        moment.reply.data.iter_mut().skip(2 + length).for_each(|byte| *byte = 0);
    }
}

/// Answer 9 has answer 10's sense.
fn sense_of_9(moment: &mut Moment) {
    if moment.reply.number == 9 {
        moment.reply.sense[2] = 3;
    }
}

/// A loaded record's last lock is lost.
fn load_keeps_lock(moment: &mut Moment) {
    if moment.command.kind == kind::LOAD_RECORD && moment.reply.number == 0 {
        moment.after.nexuses[15].lock = false;
    }
}

/// Only a changed number flags, not a changed place.
fn number_alone_flags(moment: &mut Moment) {
    for nexus in 0..16 {
        let before = moment.before.selected_set(nexus).number;
        if before == moment.after.selected_set(nexus).number && moment.command.kind == kind::VENDOR_RELEASE {
            moment.after.nexuses[nexus].changed_by_vendor_event =
                moment.before.nexuses[nexus].changed_by_vendor_event;
        }
    }
}

/// RDMC 01b is wrong under EXTERNAL too.
fn rdmc_under_external(moment: &mut Moment) {
    let page = &moment.command.data;
    let set_page = moment.command.kind == kind::OUT && moment.reply.number == 0 && page[4] >> 5 != 0;
    if set_page && page[5] & 0x38 == 0x10 && page[6] == 1 {
        refuse_page(moment, 5);
    }
}

/// The drive ends without a reply.
fn ends_at_microcode(moment: &mut Moment) {
    if moment.command.kind == kind::MICROCODE {
        std::process::exit(3);
    }
}

/// The drive gives no reply.
fn hangs_at_preempt(moment: &mut Moment) {
    if moment.command.kind == kind::PREEMPT {
        std::thread::sleep(std::time::Duration::from_secs(30));
    }
}

/// A read as the command, the record before it and the reply tell of it.
struct Read {
    block_kind: u8,
    key: u8,
    reader: Nexus,
    set: Set,
}

/// The read at hand, if it is one that has passed checks 1 to 4.
fn read_at_hand(moment: &Moment) -> Option<Read> {
    if moment.command.kind != kind::READ || !matches!(moment.reply.number, 0 | 14..=17) {
        return None;
    }
    let nexus = usize::from(moment.command.nexus);
    let [block_kind, key] = moment.command.argument.to_be_bytes();
    let (reader, set) = (moment.before.nexuses[nexus], moment.before.selected_set(nexus).clone());
    Some(Read { block_kind, key, reader, set })
}

/// The reply becomes a refusal.
fn refuse(moment: &mut Moment, number: u8, sense: [u8; 3]) {
    *moment.reply = Reply { number, sense, data: Vec::new() };
}

/// A lock stops reads as it stops writes.
fn lock_stops_reads(moment: &mut Moment) {
    if read_at_hand(moment)
        .is_some_and(|read| read.reader.lock && read.reader.saved_at_lock != read.set.number)
    {
        refuse(moment, 11, [7, 0x2A, 0x13]);
    }
}

/// A block that can't be decrypted is answered 15 whatever its key.
fn fifteen_before_fourteen(moment: &mut Moment) {
    let undecryptable = |read: Read| match read.set.decryption {
        0 => read.block_kind != 0,
        1 => false,
        _ => read.block_kind == 2,
    };
    if moment.reply.number == 14 && read_at_hand(moment).is_some_and(undecryptable) {
        refuse(moment, 15, [7, 0x74, 0x01]);
    }
}

/// RAW gives raw for kind 0 too.
fn raw_for_plain(moment: &mut Moment) {
    let raw = read_at_hand(moment).is_some_and(|read| read.set.decryption == 1 && read.block_kind == 0);
    if raw && moment.reply.number == 0 {
        moment.reply.data[0] = 1;
    }
}

/// Supplemental keys 1 to 4 are taken even above the set's count; the read is decided as with the main key.
fn key_above_count_taken(moment: &mut Moment) {
    let Some(read) = read_at_hand(moment).filter(|read| (1..=4).contains(&read.key)) else { return };
    if moment.reply.number == 14 && read.block_kind <= 2 && read.set.holds_main_key() {
        let mut drive = Drive::new();
        drive.answer(&session::load(moment.before));
        *moment.reply = drive.answer(&session::read(moment.command.nexus, read.block_kind, 0));
    }
}

/// MIXED refuses plain blocks as DECRYPT does.
fn mixed_refuses_plain(moment: &mut Moment) {
    let mixed = read_at_hand(moment).is_some_and(|read| read.set.decryption == 3 && read.block_kind == 0);
    if mixed && moment.reply.number == 0 {
        refuse(moment, 16, [7, 0x74, 0x02]);
    }
}

/// The reply becomes a page's refusal for a byte, which registers its sender. A lower byte that is told already stays.
fn refuse_page(moment: &mut Moment, byte: usize) {
    let lowest = moment.reply.faulty_byte().map_or(byte, |told| told.min(byte));
    *moment.after = moment.before.clone();
    moment.after.nexuses[usize::from(moment.command.nexus)].registered = true;
    refuse(moment, 8, [5, 0x26, 0]);
    tell(moment, lowest);
}

/// The reply tells a faulty byte.
fn tell(moment: &mut Moment, byte: usize) {
    moment.reply.data = (byte as u16).to_be_bytes().to_vec();
}

/// A Set page with CEEM 10b or 11b.
struct CeemPage {
    scope: u8,
    sdk: bool,
    ceem: u8,
    encryption: u8,
    decryption: u8,
}

impl CeemPage {
    /// Whether the request's rule is asked.
    fn is_asked(&self) -> bool {
        matches!(self.scope, scope::LOCAL | scope::ALL) && !self.sdk
    }
}

/// The page at hand, if it is one with CEEM 10b or 11b whose fields are looked at.
fn ceem_page_at_hand(moment: &Moment) -> Option<CeemPage> {
    if moment.command.kind != kind::OUT || !matches!(moment.reply.number, 0 | 8..=10) {
        return None;
    }
    let page = &moment.command.data;
    let (scope, sdk, ceem) = (page[4] >> 5, page[5] & 0x08 != 0, page[5] >> 6);
    let page = CeemPage { scope, sdk, ceem, encryption: page[6], decryption: page[7] };
    (ceem >= ceem::REPORTS_EXTERNAL).then_some(page)
}

/// The request's rule is left out for some pages: such a page is sent with CEEM 01b, and its set gets the CEEM it had.
fn spare(moment: &mut Moment, spared: impl Fn(&CeemPage) -> bool) {
    let spared = |page: &CeemPage| page.is_asked() && page.decryption == decryption::DISABLE && spared(page);
    let Some(page) = ceem_page_at_hand(moment).filter(spared) else { return };
    let mut command = moment.command.clone();
    command.data[5] = command.data[5] & 0x3F | 0x40;
    let mut drive = Drive::new();
    drive.answer(&session::load(moment.before));
    *moment.reply = drive.answer(&command);
    *moment.after = drive.controller().record.clone();
    if moment.reply.number == 0 {
        let place = moment.after.selected_place(usize::from(command.nexus));
        moment.after.places[place].ceem = page.ceem;
    }
}

/// CEEM 11b isn't refused.
fn ceem_10b_alone(moment: &mut Moment) {
    spare(moment, |page| page.ceem == ceem::REPORTS_ENCRYPT);
}

/// CEEM 10b isn't refused.
fn ceem_11b_alone(moment: &mut Moment) {
    spare(moment, |page| page.ceem == ceem::REPORTS_EXTERNAL);
}

/// ALL pages aren't refused.
fn ceem_of_local_alone(moment: &mut Moment) {
    spare(moment, |page| page.scope == scope::ALL);
}

/// The request's rule refuses more pages.
fn refuse_too(moment: &mut Moment, refused: impl Fn(&CeemPage) -> bool) {
    if ceem_page_at_hand(moment).is_some_and(|page| refused(&page)) {
        refuse_page(moment, 5);
    }
}

/// PUBLIC pages are refused too.
fn ceem_of_public(moment: &mut Moment) {
    refuse_too(moment, |page| page.scope == scope::PUBLIC && page.decryption == decryption::DISABLE);
}

/// Supplemental keys are refused too, in every mode.
fn ceem_of_sdk_1(moment: &mut Moment) {
    refuse_too(moment, |page| page.scope != scope::PUBLIC && page.sdk);
}

/// The rule is asked of supplemental keys as it is. With SDK 1 DISABLE is answered 8 anyway, but for byte 7.
fn ceem_of_sdk_1_with_disable(moment: &mut Moment) {
    refuse_too(moment, |page| {
        page.scope != scope::PUBLIC && page.sdk && page.decryption == decryption::DISABLE
    });
}

/// RAW is taken for DISABLE.
fn ceem_with_raw(moment: &mut Moment) {
    refuse_too(moment, |page| page.is_asked() && page.decryption == decryption::RAW);
}

/// Encryption DISABLE is taken for decryption DISABLE.
fn ceem_with_encryption_disable(moment: &mut Moment) {
    refuse_too(moment, |page| page.is_asked() && page.encryption == encryption::DISABLE);
}

/// A record is called not well formed if it holds a set that no page can bring any more.
fn held_set_not_well_formed(moment: &mut Moment) {
    let held = |set: &Set| {
        set.is_used() && set.ceem >= ceem::REPORTS_EXTERNAL && set.decryption == decryption::DISABLE
    };
    let takes_record = matches!(moment.command.kind, kind::IN..=kind::READ | kind::SERVES);
    let asks = takes_record && moment.reply.number != 255;
    if asks && moment.before.places.iter().any(held) {
        *moment.after = moment.before.clone();
        refuse(moment, 1, [0; 3]);
        if moment.command.kind == kind::IN {
            moment.reply.data = [vec![0; 2], vec![LENT_FILL; usize::from(moment.command.length)]].concat();
        }
    }
}

/// A drive with a fault, on a pipe.
fn faulty_drive(fault: fn(&mut Moment)) -> io::Result<()> {
    let mut drive = Drive::new();
    let (mut input, mut output) = (io::stdin().lock(), io::stdout().lock());
    while let Some(command) = Command::read(&mut input)? {
        let before = drive.controller().record.clone();
        let mut reply = drive.answer(&command);
        let mut after = drive.controller().record.clone();
        fault(&mut Moment { command: &command, before: &before, reply: &mut reply, after: &mut after });
        if after != drive.controller().record {
            drive.answer(&session::load_bytes(record_bytes::give(&after)));
        }
        let mut bytes = Vec::new();
        reply.give(&mut bytes);
        output.write_all(&bytes)?;
        output.flush()?;
    }
    Ok(())
}

/// Runs the comparison program; its exit status was success, and what it printed.
fn compare(arguments: &[&str]) -> (bool, String) {
    let output = Program::new(env!("CARGO_BIN_EXE_compare")).args(arguments).output().expect("compare runs");
    (output.status.success(), String::from_utf8_lossy(&output.stdout).into_owned())
}

/// The number of commands of the short session in a report.
fn commands_in(report: &str) -> Option<usize> {
    let (_, rest) = report.split_once("short session of ")?;
    rest.split_once(' ')?.0.parse().ok()
}

/// The wrong drives that the directed sessions alone are to find.
fn of_requests() -> impl Iterator<Item = &'static Fault> {
    let faults = READ_FAULTS.iter().chain(&CEEM_FAULTS).chain(&PLACE_FAULTS).chain(&BATCH_FAULTS);
    faults.chain(&FAULTY_BYTE_FAULTS).chain(&WORD_FAULTS)
}

/// Every test; the texts of those that failed.
fn failures() -> Vec<String> {
    let mut failures = Vec::new();
    let drive = env!("CARGO_BIN_EXE_drive");
    let (equal, report) = compare(&["--seed", "1", "--calls", "20000", drive]);
    if !equal {
        failures.push(format!("the reference drive differs from the library:\n{report}"));
    }
    let (equal, report) = compare(&["--seed", "1", "--calls", "50", "--random", drive]);
    if equal || !report.contains("never reached") {
        failures.push(format!("fifty calls reach everything:\n{report}"));
    }
    let this = std::env::current_exe().expect("this program has a path");
    let this = this.to_string_lossy();
    let faults = FAULTS.iter().map(|fault| (fault, &["--calls", "20000"][..]));
    let of_requests = of_requests().map(|fault| (fault, &["--directed"][..]));
    let faults: Vec<_> = faults.chain(of_requests).collect();
    let (some, others) = faults.split_at(faults.len() / 2);
    let find = |faults: &[(&Fault, &[&str])]| -> Vec<String> {
        faults.iter().filter_map(|(fault, sessions)| failure_of(fault, sessions, &this)).collect()
    };
    thread::scope(|scope| {
        let others = scope.spawn(|| find(others));
        failures.extend(find(some));
        failures.extend(others.join().expect("the thread ends"));
    });
    failures
}

/// Why a fault isn't found by these sessions as it is to be, if so; `this` is the program that has it.
fn failure_of((name, _, longest): &Fault, sessions: &[&str], this: &str) -> Option<String> {
    // only a drive that gives no reply is waited for in vain
    let patience = if *name == "hangs-at-preempt" { "1" } else { "60" };
    let faulty = ["--seed", "1", "--patience", patience, this, "--fault", name];
    let (equal, report) = compare(&[sessions, &faulty].concat());
    match commands_in(&report) {
        _ if equal => Some(format!("fault {name} isn't found:\n{report}")),
        Some(commands) if commands <= *longest => {
            println!("fault {name}: found, {commands} commands");
            None
        }
        Some(commands) => Some(format!("fault {name} leaves {commands} commands:\n{report}")),
        None => Some(format!("fault {name} has no short session:\n{report}")),
    }
}

fn main() -> ExitCode {
    let arguments: Vec<String> = std::env::args().collect();
    if let Some(at) = arguments.iter().position(|argument| argument == "--fault") {
        let mut faults = FAULTS.iter().chain(of_requests());
        let fault = faults.find(|(name, _, _)| *name == arguments[at + 1]);
        let (_, fault, _) = fault.expect("the fault has a name");
        return if faulty_drive(*fault).is_ok() { ExitCode::SUCCESS } else { ExitCode::FAILURE };
    }
    failures::told(&failures())
}
