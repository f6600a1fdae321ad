//! What counts 02's request 6: the bytes that are told, by its sentences, by what alone is wrong, with two rules broken
//! and with more; and pages beside them of which no byte is told.

mod rules;
mod singles;

pub use rules::{is_of_sdk_0, is_of_sdk_1, PageKind, RuleOfPage};
pub use singles::{EmptyListAfter, Form, Single};

use crate::account::Account;
use crate::codes::{encryption, page_code};
use crate::descriptors::{read_list, DescriptorRule};
use crate::record::Record;
use crate::set_page::{self, PageRule};
use crate::sizes::{A_KAD_BYTES, KEY_BYTES, U_KAD_BYTES};
use crate::status_page::{self, StatusRule};
use crate::stream::{kind, Command, Reply};
use singles::{has_sdk, is_local_or_all};
use std::collections::BTreeSet;
use std::fmt;

/// A sentence of the request, or a part of one, that settles which byte is told.
#[derive(Clone, Copy, PartialEq, Eq, PartialOrd, Ord, Debug)]
pub enum Sentence {
    LowestByte,
    FirstByteOfField,
    DescriptorLength,
    DescriptorCut,
    LeftOver,
    SupplementalScope,
    SupplementalMode,
    KeyCut,
    Ceem,
    ReservedByte,
}

impl Sentence {
    const OF_SET_PAGE: [Sentence; 10] = [
        Sentence::LowestByte,
        Sentence::FirstByteOfField,
        Sentence::DescriptorLength,
        Sentence::DescriptorCut,
        Sentence::LeftOver,
        Sentence::SupplementalScope,
        Sentence::SupplementalMode,
        Sentence::KeyCut,
        Sentence::Ceem,
        Sentence::ReservedByte,
    ];
    const OF_STATUS_PAGE: [Sentence; 5] = [
        Sentence::LowestByte,
        Sentence::FirstByteOfField,
        Sentence::DescriptorLength,
        Sentence::DescriptorCut,
        Sentence::ReservedByte,
    ];

    /// The sentence about the byte that a rule points to.
    fn about(rule: RuleOfPage) -> Sentence {
        match rule {
            RuleOfPage::Set(PageRule::Descriptor(rule))
            | RuleOfPage::Status(StatusRule::Descriptor(rule)) => Sentence::about_descriptor(rule),
            RuleOfPage::Set(PageRule::ReservedByte(_)) => Sentence::ReservedByte,
            RuleOfPage::Status(StatusRule::FixedZeroByte(_)) => Sentence::ReservedByte,
            RuleOfPage::Set(PageRule::NoListWithoutEncrypt) => Sentence::LeftOver,
            RuleOfPage::Set(PageRule::NoListWithSupplementalKey) => Sentence::LeftOver,
            RuleOfPage::Set(PageRule::SupplementalScopeIsNexusScope) => Sentence::SupplementalScope,
            RuleOfPage::Set(PageRule::SupplementalModeIsSetMode) => Sentence::SupplementalMode,
            RuleOfPage::Set(PageRule::SupplementalModeReads) => Sentence::SupplementalMode,
            RuleOfPage::Set(PageRule::KeyInPage | PageRule::SupplementalKeyInPage) => Sentence::KeyCut,
            RuleOfPage::Set(PageRule::CeemWithDecryptionDisable) => Sentence::Ceem,
            _ => Sentence::FirstByteOfField,
        }
    }

    /// The sentence about the byte that a rule of descriptors points to.
    fn about_descriptor(rule: DescriptorRule) -> Sentence {
        match rule {
            DescriptorRule::UKadLength | DescriptorRule::AKadLength => Sentence::DescriptorLength,
            DescriptorRule::HeaderInPage | DescriptorRule::DataInPage => Sentence::DescriptorCut,
            _ => Sentence::FirstByteOfField,
        }
    }
}

/// Fields that aren't looked at, or aren't wrong there, in pages that are taken.
#[derive(Clone, Copy, PartialEq, Eq, PartialOrd, Ord, Debug)]
pub enum Spared {
    /// A PUBLIC page with every bit after its scope set.
    Public,
    /// An encryption mode that there isn't, with a supplemental key.
    SupplementalEncryption,
    /// RDMC 01b and ENCRYPT, with a supplemental key.
    SupplementalRdmc,
    /// RDMC 01b without ENCRYPT.
    Rdmc01,
    /// The other values of RDMC under ENCRYPT.
    OtherRdmc(u8),
}

/// Something about faulty bytes to come to.
#[derive(Clone, Copy, PartialEq, Eq, PartialOrd, Ord, Debug)]
pub enum FaultyByteCase {
    /// A sentence about the only rule that a page breaks, or about several bytes.
    Settled {
        page: PageKind,
        sentence: Sentence,
    },
    /// A byte that is told.
    Told {
        page: PageKind,
        byte: usize,
    },
    Alone(Single),
    /// The only two rules that a page breaks.
    Two(RuleOfPage, RuleOfPage),
    /// The byte told of a page with rules broken at three bytes or more.
    LowestOfMany {
        page: PageKind,
        byte: usize,
    },
    /// A page with a wrong code that is answered otherwise.
    NotTold {
        page: PageKind,
        answer: u8,
    },
    /// The lengths of a list that is taken; 0 where the type isn't there.
    ListTaken {
        page: PageKind,
        u_kad: usize,
        a_kad: usize,
    },
    /// A page that is taken without a list, where there must be none.
    EmptyListTaken(EmptyListAfter),
    Spared(Spared),
}

/// The bytes that can be told of a page. In its list the second descriptor starts 5 to 36 bytes after the first, and a
/// third, which is never right, up to 16 bytes after that.
pub fn bytes_told(page: PageKind) -> Vec<usize> {
    let in_list = |list: usize| (list..=list + 2).chain(list + 5..=list + 52);
    match page {
        PageKind::Set => [0].into_iter().chain(4..=18).chain([20]).chain(in_list(52)).collect(),
        PageKind::Status => [0].into_iter().chain(4..=7).chain(12..=23).chain(in_list(24)).collect(),
    }
}

impl FaultyByteCase {
    /// Every case.
    pub fn every() -> Vec<FaultyByteCase> {
        let mut every: Vec<_> = Single::every().into_iter().map(FaultyByteCase::Alone).collect();
        for page in PageKind::EVERY {
            every.extend(FaultyByteCase::every_of(page));
        }
        every.extend(EmptyListAfter::EVERY.map(FaultyByteCase::EmptyListTaken));
        let spared =
            [Spared::Public, Spared::SupplementalEncryption, Spared::SupplementalRdmc, Spared::Rdmc01];
        every.extend(spared.into_iter().chain([0, 2, 3].map(Spared::OtherRdmc)).map(FaultyByteCase::Spared));
        every
    }

    /// The cases that both pages have.
    fn every_of(page: PageKind) -> Vec<FaultyByteCase> {
        let two = RuleOfPage::every_two(page).into_iter();
        let mut every: Vec<_> = two.map(|(one, other)| FaultyByteCase::Two(one, other)).collect();
        every.extend(bytes_told(page).into_iter().map(|byte| FaultyByteCase::Told { page, byte }));
        let (sentences, many, answers) = match page {
            PageKind::Set => (&Sentence::OF_SET_PAGE[..], 17, 1..=7),
            PageKind::Status => (&Sentence::OF_STATUS_PAGE[..], 23, 7..=7),
        };
        every.extend(sentences.iter().map(|&sentence| FaultyByteCase::Settled { page, sentence }));
        let many = bytes_told(page).into_iter().filter(|&byte| byte <= many);
        every.extend(many.map(|byte| FaultyByteCase::LowestOfMany { page, byte }));
        every.extend(answers.map(|answer| FaultyByteCase::NotTold { page, answer }));
        for u_kad in [0, 1, U_KAD_BYTES] {
            every.extend([0, 1, A_KAD_BYTES].map(|a_kad| FaultyByteCase::ListTaken { page, u_kad, a_kad }));
        }
        every
    }

    /// The cases that a call came to, over the record before it.
    pub fn of(command: &Command, before: &Record, reply: &Reply, account: &Account) -> Vec<FaultyByteCase> {
        let page = match command.kind {
            kind::OUT => PageKind::Set,
            kind::READ_STATUS => PageKind::Status,
            _ => return Vec::new(),
        };
        match (reply.number, reply.faulty_byte()) {
            (_, Some(byte)) => told(page, byte, command, before, account),
            (0, None) => taken(page, &command.data),
            (answer, None) => not_told(page, answer, &command.data).into_iter().collect(),
        }
    }

    /// The group it is counted in.
    pub fn group(self) -> &'static str {
        match self {
            FaultyByteCase::Settled { page: PageKind::Set, .. } => {
                "faulty bytes of the Set page, by sentence"
            }
            FaultyByteCase::Settled { .. } => "faulty bytes of the status page, by sentence",
            FaultyByteCase::Told { page: PageKind::Set, .. } => "faulty bytes of the Set page",
            FaultyByteCase::Told { .. } => "faulty bytes of the status page",
            FaultyByteCase::Alone(_) => "pages with one thing wrong",
            FaultyByteCase::Two(RuleOfPage::Set(_), _) => "two rules of the Set page and no other broken",
            FaultyByteCase::Two(..) => "two rules of the status reader and no other broken",
            FaultyByteCase::LowestOfMany { .. } => "lowest of three or more bytes",
            FaultyByteCase::NotTold { .. } => "pages with a wrong code and another answer than 8",
            FaultyByteCase::ListTaken { .. } => "lists taken, by lengths",
            FaultyByteCase::EmptyListTaken(_) => "pages taken where there must be no list",
            FaultyByteCase::Spared(_) => "fields that aren't wrong in pages taken",
        }
    }

    /// Whether it is one of all the values of something, which are the directed sessions' task.
    pub fn is_one_of_all_values(self) -> bool {
        !matches!(self, FaultyByteCase::Settled { .. })
    }
}

/// The cases of a page of which a byte is told.
fn told(
    page: PageKind,
    byte: usize,
    command: &Command,
    before: &Record,
    account: &Account,
) -> Vec<FaultyByteCase> {
    let broken = RuleOfPage::broken_by(account);
    let mut cases = vec![FaultyByteCase::Told { page, byte }];
    cases.extend(Single::of(command, before, &broken).map(FaultyByteCase::Alone));
    match broken[..] {
        [(rule, _)] => cases.push(FaultyByteCase::Settled { page, sentence: Sentence::about(rule) }),
        [(one, _), (other, _)] => cases.push(FaultyByteCase::Two(one.min(other), one.max(other))),
        _ => {}
    }
    match broken.iter().map(|&(_, byte)| byte).collect::<BTreeSet<_>>().len() {
        0 | 1 => {}
        bytes => {
            cases.push(FaultyByteCase::Settled { page, sentence: Sentence::LowestByte });
            cases.extend((bytes > 2).then_some(FaultyByteCase::LowestOfMany { page, byte }));
        }
    }
    cases
}

/// The case of a page with a wrong code that is answered neither 0 nor 8.
fn not_told(page: PageKind, answer: u8, bytes: &[u8]) -> Option<FaultyByteCase> {
    let code = match page {
        PageKind::Set => page_code::SET_DATA_ENCRYPTION,
        PageKind::Status => page_code::STATUS,
    };
    let wrong = bytes.get(..2).is_some_and(|bytes| bytes != code.to_be_bytes());
    wrong.then_some(FaultyByteCase::NotTold { page, answer })
}

/// The cases of a page that is taken.
fn taken(page: PageKind, bytes: &[u8]) -> Vec<FaultyByteCase> {
    let list = match page {
        PageKind::Status => status_page::HEADER_BYTES,
        PageKind::Set if !is_local_or_all(bytes) => {
            let all_wrong = bytes[4] & 0x1F == 0x1F && bytes[5..].iter().all(|&byte| byte == 0xFF);
            return all_wrong.then_some(FaultyByteCase::Spared(Spared::Public)).into_iter().collect();
        }
        PageKind::Set => set_page::HEADER_BYTES + KEY_BYTES,
    };
    let mut cases = Vec::new();
    if page == PageKind::Set {
        cases.extend(spared(bytes).map(FaultyByteCase::Spared));
        if let Some(after) = EmptyListAfter::of(bytes) {
            cases.push(FaultyByteCase::EmptyListTaken(after));
            return cases;
        }
    }
    let kads = read_list(bytes, list).expect("the page is taken");
    let [u_kad, a_kad] = [kads.u_kad.length, kads.a_kad.length].map(usize::from);
    cases.push(FaultyByteCase::ListTaken { page, u_kad, a_kad });
    cases
}

/// What isn't wrong in a page of LOCAL or ALL that is taken.
fn spared(page: &[u8]) -> Option<Spared> {
    let rdmc = page[5] >> 4 & 3;
    match (has_sdk(page), page[6]) {
        (true, encryption::ENCRYPT) => (rdmc == 1).then_some(Spared::SupplementalRdmc),
        (true, mode) => (mode > encryption::ENCRYPT).then_some(Spared::SupplementalEncryption),
        (false, encryption::ENCRYPT) => Some(Spared::OtherRdmc(rdmc)),
        (false, _) => (rdmc == 1).then_some(Spared::Rdmc01),
    }
}

impl fmt::Display for FaultyByteCase {
    fn fmt(&self, formatter: &mut fmt::Formatter) -> fmt::Result {
        match self {
            FaultyByteCase::Settled { sentence, .. } => write!(formatter, "{sentence:?}"),
            FaultyByteCase::Told { byte, .. } => write!(formatter, "{byte}"),
            FaultyByteCase::Alone(single) => write!(formatter, "{single}"),
            FaultyByteCase::Two(one, other) => write!(formatter, "{one} and {other}"),
            FaultyByteCase::LowestOfMany { page, byte } => write!(formatter, "{page:?} page, byte {byte}"),
            FaultyByteCase::NotTold { page, answer } => write!(formatter, "{page:?} page, answer {answer}"),
            FaultyByteCase::ListTaken { page, u_kad, a_kad } => {
                write!(formatter, "{page:?} page, U-KAD {u_kad}, A-KAD {a_kad}")
            }
            FaultyByteCase::EmptyListTaken(after) => write!(formatter, "{after:?}"),
            FaultyByteCase::Spared(spared) => write!(formatter, "{spared:?}"),
        }
    }
}
