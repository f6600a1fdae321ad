//! The rules that point to a byte, of both pages, and which of them one page can break together.

use crate::account::Account;
use crate::descriptors::DescriptorRule;
use crate::set_page::PageRule;
use crate::status_page::StatusRule;
use std::fmt;

/// The pages of which a faulty byte is told.
#[derive(Clone, Copy, PartialEq, Eq, PartialOrd, Ord, Debug)]
pub enum PageKind {
    /// The page of OUT.
    Set,
    /// The page of the status reader.
    Status,
}

impl PageKind {
    pub const EVERY: [PageKind; 2] = [PageKind::Set, PageKind::Status];
}

/// A rule of one of the pages.
#[derive(Clone, Copy, PartialEq, Eq, PartialOrd, Ord, Debug)]
pub enum RuleOfPage {
    Set(PageRule),
    Status(StatusRule),
}

impl RuleOfPage {
    /// Every rule of a page that points to a byte.
    pub fn every(page: PageKind) -> Vec<RuleOfPage> {
        let mut every: Vec<_> = match page {
            PageKind::Set => {
                let rules = PageRule::every().into_iter().filter(|rule| !rule.is_about_length());
                rules.map(RuleOfPage::Set).collect()
            }
            PageKind::Status => {
                let rules = StatusRule::every().into_iter().filter(|rule| !rule.is_about_length());
                rules.map(RuleOfPage::Status).collect()
            }
        };
        every.sort();
        every
    }

    /// Every two rules of a page that it can break together, and no others.
    pub fn every_two(page: PageKind) -> Vec<(RuleOfPage, RuleOfPage)> {
        let every = RuleOfPage::every(page);
        let with_later = |(at, &one): (usize, &RuleOfPage)| {
            let later = every[at + 1..].iter().filter(move |&&other| one.goes_with(other));
            later.map(|&other| (one, other)).collect::<Vec<_>>()
        };
        every.iter().enumerate().flat_map(with_later).collect()
    }

    /// Whether a page can break both.
    pub fn goes_with(self, other: RuleOfPage) -> bool {
        match (self, other) {
            (RuleOfPage::Set(one), RuleOfPage::Set(other)) => !excludes(one, other) && !excludes(other, one),
            (RuleOfPage::Status(one), RuleOfPage::Status(other)) => match (one, other) {
                (StatusRule::Descriptor(one), StatusRule::Descriptor(other)) => one_descriptor(one, other),
                _ => true,
            },
            _ => false,
        }
    }

    /// The rules that a call's page breaks, each with its byte; rules about its length aren't among them.
    pub fn broken_by(account: &Account) -> Vec<(RuleOfPage, usize)> {
        let set = account.page_rules.iter().filter_map(|it| Some((RuleOfPage::Set(it.rule), it.byte?)));
        let status =
            account.status_rules.iter().filter_map(|it| Some((RuleOfPage::Status(it.rule), it.byte?)));
        set.chain(status).collect()
    }
}

/// Whether a rule is asked with SDK 0 alone.
pub fn is_of_sdk_0(rule: PageRule) -> bool {
    matches!(
        rule,
        PageRule::RdmcUnderEncrypt
            | PageRule::CeemWithDecryptionDisable
            | PageRule::EncryptionMode
            | PageRule::DecryptionMode
            | PageRule::KeyLength
            | PageRule::KeyInPage
            | PageRule::NoListWithoutEncrypt
            | PageRule::Descriptor(_)
    )
}

/// Whether a rule is asked with SDK 1 alone.
pub fn is_of_sdk_1(rule: PageRule) -> bool {
    matches!(
        rule,
        PageRule::SupplementalScopeIsNexusScope
            | PageRule::SupplementalModeIsSetMode
            | PageRule::SupplementalModeReads
            | PageRule::SupplementalKeyLength
            | PageRule::SupplementalKeyInPage
            | PageRule::NoListWithSupplementalKey
    )
}

/// Whether a page that breaks the first rule can't break the other: the one isn't asked then, or is kept.
fn excludes(one: PageRule, other: PageRule) -> bool {
    let by_fields = match one {
        PageRule::Scope => other != PageRule::PageCode,
        PageRule::RdmcUnderEncrypt => {
            matches!(other, PageRule::EncryptionMode | PageRule::NoListWithoutEncrypt)
        }
        PageRule::CeemWithDecryptionDisable => other == PageRule::DecryptionMode,
        PageRule::KeyInPage => matches!(other, PageRule::NoListWithoutEncrypt | PageRule::Descriptor(_)),
        PageRule::Descriptor(one) => match other {
            PageRule::Descriptor(other) => !one_descriptor(one, other),
            _ => matches!(other, PageRule::EncryptionMode | PageRule::NoListWithoutEncrypt),
        },
        PageRule::SupplementalScopeIsNexusScope => other == PageRule::SupplementalModeIsSetMode,
        PageRule::SupplementalKeyInPage => other == PageRule::NoListWithSupplementalKey,
        _ => false,
    };
    by_fields || is_of_sdk_0(one) && is_of_sdk_1(other)
}

/// Whether one descriptor can break both.
fn one_descriptor(one: DescriptorRule, other: DescriptorRule) -> bool {
    let excluded = |one, other| match one {
        DescriptorRule::TypeUKadOrAKad => matches!(
            other,
            DescriptorRule::TypesRise | DescriptorRule::UKadLength | DescriptorRule::AKadLength
        ),
        DescriptorRule::HeaderInPage => matches!(
            other,
            DescriptorRule::UKadLength | DescriptorRule::AKadLength | DescriptorRule::DataInPage
        ),
        DescriptorRule::UKadLength => other == DescriptorRule::AKadLength,
        _ => false,
    };
    !excluded(one, other) && !excluded(other, one)
}

impl fmt::Display for RuleOfPage {
    fn fmt(&self, formatter: &mut fmt::Formatter) -> fmt::Result {
        match self {
            RuleOfPage::Set(rule) => write!(formatter, "{rule:?}"),
            RuleOfPage::Status(rule) => write!(formatter, "{rule:?}"),
        }
    }
}
