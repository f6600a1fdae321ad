//! What the sessions came to, counted: a run that never came to something on the list fails.

use super::batch_cases::BatchCase;
use super::ceem_cases::CeemCase;
use super::faulty_byte_cases::FaultyByteCase;
use super::place_cases::{PlaceCase, PlaceHistory};
use super::report::kind_name;
use super::word_cases::{WordCase, WordHistory};
use crate::account::{Account, ReadCell, Rule};
use crate::codes::{decryption, encryption};
use crate::names::READ;
use crate::record::Record;
use crate::set_page::PageRule;
use crate::sizes::{PLACES, SUPPLEMENTAL_KEYS};
use crate::status_page::StatusRule;
use crate::stream::{kind, Command, Reply};
use crate::well_formed::Clause;
use std::collections::{BTreeMap, BTreeSet};
use std::fmt;

/// The largest page length, and the largest lent buffer, that are all to be tried.
const PAGE_LENGTHS: usize = 120;
const LENT_SIZES: usize = 80;
/// The bytes of the Set page of which all values are to be tried.
const VALUED_BYTES: std::ops::RangeInclusive<usize> = 4..=10;
/// The block kinds and the keys of the table of reads.
const TABLE_KINDS: [u8; 5] = [0, 1, 2, 3, 255];
const TABLE_KEYS: [u8; 8] = [0, 1, 2, 3, 4, 5, 254, 255];

/// Something to come to.
#[derive(Clone, Copy, PartialEq, Eq, PartialOrd, Ord, Debug)]
pub enum Item {
    Answer(u8),
    KindAnswer(u8, u8),
    ResponsePage(u16),
    Event { kind: u8, releases: bool },
    ReadDone { as_what: u8, place: u8 },
    ClauseBroken(Clause),
    ClauseBrokenAlone(Clause),
    PageRuleBroken(PageRule),
    PageRuleBrokenAlone(PageRule),
    StatusRuleBroken(StatusRule),
    StatusRuleBrokenAlone(StatusRule),
    RuleAtWork(Rule),
    SetPageLength(usize),
    StatusPageLength(usize),
    LentSize(usize),
    SetPageByte(usize, u8),
    ReadCell(ReadCell),
    ReadKind(u8),
    ReadKey(u8),
    Ceem(CeemCase),
    Batch(BatchCase),
    Place(PlaceCase),
    FaultyByte(FaultyByteCase),
    Word(WordCase),
}

impl Item {
    /// The group it is counted in.
    fn group(self) -> &'static str {
        match self {
            Item::Answer(_) => "answers",
            Item::KindAnswer(..) => "kinds of call with their answers",
            Item::ResponsePage(_) => "response pages given",
            Item::Event { .. } => "events with and without a release",
            Item::ReadDone { .. } => "reads done, by place",
            Item::ClauseBroken(_) => "clauses of well-formedness broken",
            Item::ClauseBrokenAlone(_) => "clauses of well-formedness broken alone",
            Item::PageRuleBroken(_) => "rules of the page broken",
            Item::PageRuleBrokenAlone(_) => "rules of the page broken alone",
            Item::StatusRuleBroken(_) => "rules of the status reader broken",
            Item::StatusRuleBrokenAlone(_) => "rules of the status reader broken alone",
            Item::RuleAtWork(_) => "other rules at work",
            Item::SetPageLength(_) => "lengths of the Set page",
            Item::StatusPageLength(_) => "lengths of the status page",
            Item::LentSize(_) => "sizes of the lent buffer",
            Item::SetPageByte(..) => "values of bytes 4 to 10 of the Set page",
            Item::ReadCell(_) => "cells of the table of reads",
            Item::ReadKind(_) => "block kinds of reads",
            Item::ReadKey(_) => "keys of reads",
            Item::Ceem(case) => case.group(),
            Item::Batch(case) => case.group(),
            Item::Place(case) => case.group(),
            Item::FaultyByte(case) => case.group(),
            Item::Word(case) => case.group(),
        }
    }

    /// Whether it is one of all the lengths, sizes or values of a field, or a cell of a table. They are the directed
    /// sessions' task, and they are told by how many were reached.
    fn is_one_of_all_values(self) -> bool {
        match self {
            Item::SetPageLength(_) | Item::StatusPageLength(_) | Item::LentSize(_) => true,
            Item::SetPageByte(..) | Item::ReadCell(_) | Item::ReadKind(_) | Item::ReadKey(_) => true,
            Item::Ceem(_) => true,
            Item::Batch(case) => case.is_one_of_all_values(),
            Item::Place(case) => case.is_one_of_all_values(),
            Item::FaultyByte(case) => case.is_one_of_all_values(),
            Item::Word(case) => case.is_one_of_all_values(),
            _ => false,
        }
    }
}

impl fmt::Display for Item {
    fn fmt(&self, formatter: &mut fmt::Formatter) -> fmt::Result {
        match self {
            Item::Answer(number) => write!(formatter, "{number}"),
            Item::KindAnswer(kind, number) => write!(formatter, "{} {number}", kind_name(*kind)),
            Item::ResponsePage(code) => write!(formatter, "{code:04X}h"),
            Item::Event { kind, releases } => {
                write!(formatter, "{} {}", kind_name(*kind), if *releases { "with" } else { "without" })
            }
            Item::ReadDone { as_what, place } => {
                let as_what = READ[usize::from(*as_what)];
                write!(formatter, "{as_what} from place {place}")
            }
            Item::ClauseBroken(clause) | Item::ClauseBrokenAlone(clause) => write!(formatter, "{clause:?}"),
            Item::PageRuleBroken(rule) | Item::PageRuleBrokenAlone(rule) => write!(formatter, "{rule:?}"),
            Item::StatusRuleBroken(rule) | Item::StatusRuleBrokenAlone(rule) => write!(formatter, "{rule:?}"),
            Item::RuleAtWork(rule) => write!(formatter, "{rule:?}"),
            Item::SetPageLength(number) | Item::StatusPageLength(number) | Item::LentSize(number) => {
                write!(formatter, "{number}")
            }
            Item::SetPageByte(byte, value) => write!(formatter, "byte {byte} {value:02X}h"),
            Item::ReadCell(cell) => write!(formatter, "{cell}"),
            Item::ReadKind(number) | Item::ReadKey(number) => write!(formatter, "{number}"),
            Item::Ceem(case) => write!(formatter, "{case}"),
            Item::Batch(case) => write!(formatter, "{case}"),
            Item::Place(case) => write!(formatter, "{case}"),
            Item::FaultyByte(case) => write!(formatter, "{case}"),
            Item::Word(case) => write!(formatter, "{case}"),
        }
    }
}

/// The answers each kind of call can give, by 01, 02 and docs/CONSOLE.md. 14 stands for the unknown kinds.
pub const KIND_ANSWERS: [(u8, &[u8]); 17] = [
    (kind::POWER_ON, &[0]),
    (kind::IN, &[0, 1, 2, 3, 4, 5, 6]),
    (kind::OUT, &[0, 1, 2, 3, 4, 5, 6, 7, 8, 9, 10]),
    (kind::WRITE, &[0, 1, 2, 3, 4, 11, 12]),
    (kind::LOGICAL_UNIT_RESET, &[0, 1]),
    (kind::DEMOUNT, &[0, 1]),
    (kind::NEXUS_RESERVATION_LOSS, &[0, 1, 2]),
    (kind::DEVICE_RESERVATION_LOSS, &[0, 1]),
    (kind::PREEMPT, &[0, 1, 2]),
    (kind::MICROCODE, &[0, 1]),
    (kind::VENDOR_RELEASE, &[0, 1, 13]),
    (kind::READ, &[0, 1, 2, 3, 4, 14, 15, 16, 17]),
    (kind::BATCH, &[0, 18, 22, 255]),
    (kind::SERVES, &[0, 1, 13]),
    (kind::READ_STATUS, &[0, 7, 8]),
    (kind::LOAD_RECORD, &[0, 1]),
    (UNKNOWN, &[255]),
];
const UNKNOWN: u8 = 14;

/// Every cell of the table of reads: the modes, which tell whether the set holds a main key, the count of
/// supplemental keys, the block kind and the key.
fn table_of_reads() -> Vec<ReadCell> {
    let mut cells = Vec::new();
    for encryption in encryption::DISABLE..=encryption::ENCRYPT {
        for decryption in decryption::DISABLE..=decryption::MIXED {
            for supplemental_count in 0..=SUPPLEMENTAL_KEYS as u8 {
                for block_kind in TABLE_KINDS {
                    cells.extend(TABLE_KEYS.map(|key| ReadCell {
                        encryption,
                        decryption,
                        supplemental_count,
                        block_kind,
                        key,
                    }));
                }
            }
        }
    }
    cells
}

/// The counts.
#[derive(Default)]
pub struct Reached {
    counts: BTreeMap<Item, u64>,
    page_bytes: BTreeMap<usize, Vec<u64>>,
    page_rule_pairs: BTreeSet<(PageRule, PageRule)>,
    places: PlaceHistory,
    words: WordHistory,
    pub calls: u64,
}

impl Reached {
    /// Counts a call over the record before it.
    pub fn count(&mut self, command: &Command, before: &Record, reply: &Reply, account: &Account) {
        self.calls += 1;
        let known = KIND_ANSWERS.iter().any(|&(kind, _)| kind == command.kind) || command.kind == 255;
        let kind = if known { command.kind } else { UNKNOWN };
        self.add(Item::Answer(reply.number));
        self.add(Item::KindAnswer(kind, reply.number));
        match kind {
            kind::IN => {
                self.add(Item::LentSize(usize::from(command.length)));
                if reply.number == 0 {
                    self.add(Item::ResponsePage(command.argument));
                }
            }
            kind::OUT => self.count_set_page(&command.data, reply.number),
            kind::READ => self.count_read(reply, account),
            kind::READ_STATUS => self.add(Item::StatusPageLength(command.data.len())),
            kind::DEMOUNT..=kind::VENDOR_RELEASE if reply.number == 0 => {
                self.add(Item::Event { kind, releases: account.tells(Rule::Releases) });
            }
            _ => {}
        }
        for case in CeemCase::of(command, before, reply, account) {
            self.add(Item::Ceem(case));
        }
        for case in BatchCase::of(command, before, reply, account) {
            self.add(Item::Batch(case));
        }
        for case in self.places.follow(command, before, reply, account) {
            self.add(Item::Place(case));
        }
        for case in FaultyByteCase::of(command, before, reply, account) {
            self.add(Item::FaultyByte(case));
        }
        for case in self.words.follow(command, before, reply, account) {
            self.add(Item::Word(case));
        }
        self.count_account(account);
    }

    /// Counts a Set page's length and bytes, if the page was looked at.
    fn count_set_page(&mut self, page: &[u8], number: u8) {
        if !matches!(number, 0 | 7..=10) {
            return;
        }
        self.add(Item::SetPageLength(page.len()));
        if number == 7 {
            return;
        }
        for byte in VALUED_BYTES {
            let counts = self.page_bytes.entry(byte).or_insert_with(|| vec![0; 256]);
            counts[usize::from(page[byte])] += 1;
        }
    }

    /// Counts a read's decision, and its cell and arguments if they were looked at.
    fn count_read(&mut self, reply: &Reply, account: &Account) {
        if let [as_what, place] = reply.data[..] {
            self.add(Item::ReadDone { as_what, place });
        }
        let Some(cell) = account.read_cell else { return };
        if TABLE_KINDS.contains(&cell.block_kind) && TABLE_KEYS.contains(&cell.key) {
            self.add(Item::ReadCell(cell));
        }
        self.add(Item::ReadKind(cell.block_kind));
        self.add(Item::ReadKey(cell.key));
    }

    /// Counts the rules of an account.
    fn count_account(&mut self, account: &Account) {
        for &clause in &account.clauses {
            self.add(Item::ClauseBroken(clause));
        }
        if let [clause] = account.clauses[..] {
            self.add(Item::ClauseBrokenAlone(clause));
        }
        for (at, broken) in account.page_rules.iter().enumerate() {
            self.add(Item::PageRuleBroken(broken.rule));
            for other in &account.page_rules[..at] {
                let (low, high) = (broken.rule.min(other.rule), broken.rule.max(other.rule));
                self.page_rule_pairs.insert((low, high));
            }
        }
        if let [broken] = account.page_rules[..] {
            self.add(Item::PageRuleBrokenAlone(broken.rule));
        }
        for broken in &account.status_rules {
            self.add(Item::StatusRuleBroken(broken.rule));
        }
        if let [broken] = account.status_rules[..] {
            self.add(Item::StatusRuleBrokenAlone(broken.rule));
        }
        for step in &account.steps {
            self.add(Item::RuleAtWork(step.rule));
        }
    }

    /// Counts one thing.
    fn add(&mut self, item: Item) {
        *self.counts.entry(item).or_insert(0) += 1;
    }

    /// How often something was reached.
    pub fn count_of(&self, item: Item) -> u64 {
        match item {
            Item::SetPageByte(byte, value) => {
                self.page_bytes.get(&byte).map_or(0, |counts| counts[usize::from(value)])
            }
            _ => self.counts.get(&item).copied().unwrap_or(0),
        }
    }

    /// Everything a run has to come to.
    pub fn wanted() -> Vec<Item> {
        let mut wanted: Vec<Item> = (0..=17).chain([18, 22, 255]).map(Item::Answer).collect();
        for (kind, answers) in KIND_ANSWERS {
            wanted.extend(answers.iter().map(|&number| Item::KindAnswer(kind, number)));
        }
        wanted.extend([0x0000, 0x0001, 0x0012, 0x0020].map(Item::ResponsePage));
        for kind in kind::DEMOUNT..=kind::VENDOR_RELEASE {
            wanted.extend([true, false].map(|releases| Item::Event { kind, releases }));
        }
        for as_what in 0..3 {
            wanted.extend((0..PLACES as u8).map(|place| Item::ReadDone { as_what, place }));
        }
        wanted.extend(Clause::EVERY.map(Item::ClauseBroken));
        let alone = Clause::EVERY.into_iter().filter(|clause| clause.breaks_alone());
        wanted.extend(alone.map(Item::ClauseBrokenAlone));
        for rule in PageRule::every() {
            wanted.extend([Item::PageRuleBroken(rule), Item::PageRuleBrokenAlone(rule)]);
        }
        for rule in StatusRule::every() {
            wanted.extend([Item::StatusRuleBroken(rule), Item::StatusRuleBrokenAlone(rule)]);
        }
        wanted.extend(Rule::EVERY.map(Item::RuleAtWork));
        wanted.extend((0..=PAGE_LENGTHS).map(Item::SetPageLength));
        wanted.extend((0..=PAGE_LENGTHS).map(Item::StatusPageLength));
        wanted.extend((0..=LENT_SIZES).map(Item::LentSize));
        for byte in VALUED_BYTES {
            wanted.extend((0..=255).map(|value| Item::SetPageByte(byte, value)));
        }
        wanted.extend(table_of_reads().into_iter().map(Item::ReadCell));
        wanted.extend((0..=255).map(Item::ReadKind));
        wanted.extend((0..=255).map(Item::ReadKey));
        wanted.extend(CeemCase::every().into_iter().map(Item::Ceem));
        wanted.extend(BatchCase::every().into_iter().map(Item::Batch));
        wanted.extend(PlaceCase::every().into_iter().map(Item::Place));
        wanted.extend(FaultyByteCase::every().into_iter().map(Item::FaultyByte));
        wanted.extend(WordCase::every().into_iter().map(Item::Word));
        wanted.sort();
        wanted
    }

    /// The counts in words.
    pub fn text(&self) -> String {
        let pairs = self.page_rule_pairs.len();
        self.text_of(Reached::wanted()) + &format!("pairs of rules of the page broken together: {pairs}\n")
    }

    /// The counts of some items in words, a line for each group.
    pub fn text_of(&self, wanted: Vec<Item>) -> String {
        let mut groups: Vec<(Item, Vec<Item>)> = Vec::new();
        for item in wanted {
            match groups.last_mut() {
                Some((first, items)) if first.group() == item.group() => items.push(item),
                _ => groups.push((item, vec![item])),
            }
        }
        let mut text = String::new();
        for (first, items) in groups {
            let counts: Vec<(Item, u64)> = items.iter().map(|&item| (item, self.count_of(item))).collect();
            let told = if first.is_one_of_all_values() {
                let reached = counts.iter().filter(|(_, count)| *count > 0).count();
                format!("{reached} of {}", counts.len())
            } else {
                let parts: Vec<String> =
                    counts.iter().map(|(item, count)| format!("{item}: {count}")).collect();
                parts.join(", ")
            };
            text.push_str(&format!("{}: {told}\n", first.group()));
        }
        text
    }

    /// What was never reached, in words; without directed sessions nobody asks for all values.
    pub fn missing_text(&self, directed: bool) -> String {
        let asked = |item: &Item| directed || !item.is_one_of_all_values();
        self.missing_text_of(Reached::wanted().into_iter().filter(asked))
    }

    /// What of some items was never reached, in words.
    pub fn missing_text_of(&self, wanted: impl Iterator<Item = Item>) -> String {
        let mut text = String::new();
        for item in wanted.filter(|&item| self.count_of(item) == 0) {
            text.push_str(&format!("    never reached: {}: {item}\n", item.group()));
        }
        text
    }
}
