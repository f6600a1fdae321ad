//! The account a call gives of itself: which rules of 01 and 02 were at work, for the comparison's counts, its reports
//! and the reasons of 02's request 8. It never decides an answer.

use crate::answer::Broken;
use crate::recording::BrokenByBatch;
use crate::set_page::PageRule;
use crate::status_page::StatusRule;
use crate::well_formed::Clause;
use std::fmt;

/// A rule of 01 or 02 that a call can come to, apart from the rules that pages and records can break.
#[derive(Clone, Copy, PartialEq, Eq, PartialOrd, Ord, Debug)]
pub enum Rule {
    NexusAbove15,
    PlaceAbove4,
    PendingAnotherNexus,
    PendingVendorEvent,
    ProtocolNot20,
    PageNotSupported,
    Registers,
    RegisteredAlready,
    Draws,
    DrawWraps,
    Releases,
    EmptyPlaceNotReleased,
    LocalNexusBecomesPublic,
    AllNexusBecomesPublic,
    LockStaysAtRelease,
    PublicReleasesOwnPlace,
    PublicWithoutOwnPlace,
    PublicFromAllLeavesPlaceZero,
    AllReleasesOwnPlace,
    AllWithoutOwnPlace,
    AllEstablishesPlaceZero,
    OtherAllNexusBecomesPublic,
    LocalTakesPresentPlace,
    LocalTakesLowestEmptyPlace,
    LocalTakesPlaceOfUnlockedOwner,
    LocalFindsNoPlace,
    LocalFromAllLeavesPlaceZero,
    LocalSavesLastLocalNumber,
    EstablishesWithKey,
    EstablishesWithoutKey,
    EstablishesWithUKad,
    EstablishesWithAKad,
    EstablishesWithRdmd,
    LockSavesNumber,
    NoLockKeepsSavedNumber,
    AppendsSupplementalKey,
    FifthSupplementalKey,
    FlagsAnotherNexus,
    FlagsVendorEvent,
    FlagsForPlaceAlone,
    FlagsForNumberAlone,
    NoFlagWhenNotRegistered,
    NoFlagForActingNexus,
    NoFlagForUnchangedSelection,
    ResetClearsRegistered,
    ResetClearsPending,
    WritesClear,
    WritesExternal,
    WritesEncrypted,
    WriteLockedAndUnchanged,
    WriteKeyInstanceChanged,
    WriteChangedButNotLocked,
    WriteNotSupported,
    WriteNotSupportedButNotEncrypted,
    BufferShorterThanPage,
    BufferOfPageLength,
    BufferLongerThanPage,
    ReadLockedAndUnchanged,
    ReadNotStoppedByLock,
    ReadBlockKindAbove2,
    ReadKeyWithoutMainKey,
    ReadKeyAboveCount,
    ReadsPlainUnderDisable,
    ReadsPlainUnderRaw,
    ReadsPlainUnderMixed,
    ReadsRaw,
    ReadsDecryptedByMainKey,
    ReadsDecryptedBySupplementalKey,
    ReadEncryptedUnderDisable,
    ReadEncryptedOtherwise,
    ReadPlainUnderDecrypt,
    ReadOpenedByNoKey,
    BitMovesToLocalPlace,
    BitMovesToPlaceZero,
    ServesNexuses,
    ServesNobody,
}

impl Rule {
    pub const EVERY: [Rule; 76] = [
        Rule::NexusAbove15,
        Rule::PlaceAbove4,
        Rule::PendingAnotherNexus,
        Rule::PendingVendorEvent,
        Rule::ProtocolNot20,
        Rule::PageNotSupported,
        Rule::Registers,
        Rule::RegisteredAlready,
        Rule::Draws,
        Rule::DrawWraps,
        Rule::Releases,
        Rule::EmptyPlaceNotReleased,
        Rule::LocalNexusBecomesPublic,
        Rule::AllNexusBecomesPublic,
        Rule::LockStaysAtRelease,
        Rule::PublicReleasesOwnPlace,
        Rule::PublicWithoutOwnPlace,
        Rule::PublicFromAllLeavesPlaceZero,
        Rule::AllReleasesOwnPlace,
        Rule::AllWithoutOwnPlace,
        Rule::AllEstablishesPlaceZero,
        Rule::OtherAllNexusBecomesPublic,
        Rule::LocalTakesPresentPlace,
        Rule::LocalTakesLowestEmptyPlace,
        Rule::LocalTakesPlaceOfUnlockedOwner,
        Rule::LocalFindsNoPlace,
        Rule::LocalFromAllLeavesPlaceZero,
        Rule::LocalSavesLastLocalNumber,
        Rule::EstablishesWithKey,
        Rule::EstablishesWithoutKey,
        Rule::EstablishesWithUKad,
        Rule::EstablishesWithAKad,
        Rule::EstablishesWithRdmd,
        Rule::LockSavesNumber,
        Rule::NoLockKeepsSavedNumber,
        Rule::AppendsSupplementalKey,
        Rule::FifthSupplementalKey,
        Rule::FlagsAnotherNexus,
        Rule::FlagsVendorEvent,
        Rule::FlagsForPlaceAlone,
        Rule::FlagsForNumberAlone,
        Rule::NoFlagWhenNotRegistered,
        Rule::NoFlagForActingNexus,
        Rule::NoFlagForUnchangedSelection,
        Rule::ResetClearsRegistered,
        Rule::ResetClearsPending,
        Rule::WritesClear,
        Rule::WritesExternal,
        Rule::WritesEncrypted,
        Rule::WriteLockedAndUnchanged,
        Rule::WriteKeyInstanceChanged,
        Rule::WriteChangedButNotLocked,
        Rule::WriteNotSupported,
        Rule::WriteNotSupportedButNotEncrypted,
        Rule::BufferShorterThanPage,
        Rule::BufferOfPageLength,
        Rule::BufferLongerThanPage,
        Rule::ReadLockedAndUnchanged,
        Rule::ReadNotStoppedByLock,
        Rule::ReadBlockKindAbove2,
        Rule::ReadKeyWithoutMainKey,
        Rule::ReadKeyAboveCount,
        Rule::ReadsPlainUnderDisable,
        Rule::ReadsPlainUnderRaw,
        Rule::ReadsPlainUnderMixed,
        Rule::ReadsRaw,
        Rule::ReadsDecryptedByMainKey,
        Rule::ReadsDecryptedBySupplementalKey,
        Rule::ReadEncryptedUnderDisable,
        Rule::ReadEncryptedOtherwise,
        Rule::ReadPlainUnderDecrypt,
        Rule::ReadOpenedByNoKey,
        Rule::BitMovesToLocalPlace,
        Rule::BitMovesToPlaceZero,
        Rule::ServesNexuses,
        Rule::ServesNobody,
    ];
}

/// A rule at work, with what it was about.
#[derive(Clone, Copy, PartialEq, Eq, Debug)]
pub struct Step {
    pub rule: Rule,
    pub place: Option<usize>,
    pub nexus: Option<usize>,
    pub number: Option<u32>,
}

impl fmt::Display for Step {
    fn fmt(&self, formatter: &mut fmt::Formatter) -> fmt::Result {
        write!(formatter, "{:?}", self.rule)?;
        if let Some(nexus) = self.nexus {
            write!(formatter, ", nexus {nexus}")?;
        }
        if let Some(place) = self.place {
            write!(formatter, ", place {place}")?;
        }
        if let Some(number) = self.number {
            write!(formatter, ", number {number}")?;
        }
        Ok(())
    }
}

/// What a read that has passed checks 1 to 4 is decided over: a cell of the table of reads.
#[derive(Clone, Copy, PartialEq, Eq, PartialOrd, Ord, Debug)]
pub struct ReadCell {
    pub encryption: u8,
    pub decryption: u8,
    pub supplemental_count: u8,
    pub block_kind: u8,
    pub key: u8,
}

impl fmt::Display for ReadCell {
    fn fmt(&self, formatter: &mut fmt::Formatter) -> fmt::Result {
        write!(
            formatter,
            "block kind {}, key {}, encryption {}, decryption {}, {} supplemental keys",
            self.block_kind, self.key, self.encryption, self.decryption, self.supplemental_count
        )
    }
}

/// The account of one call. A batch's has nothing of its events' calls.
#[derive(Clone, Default, PartialEq, Eq, Debug)]
pub struct Account {
    pub clauses: Vec<Clause>,
    pub page_rules: Vec<Broken<PageRule>>,
    pub status_rules: Vec<Broken<StatusRule>>,
    pub batch_rules: Vec<BrokenByBatch>,
    pub steps: Vec<Step>,
    pub read_cell: Option<ReadCell>,
}

impl Account {
    /// Notes a rule about nothing in particular.
    pub fn note(&mut self, rule: Rule) {
        self.steps.push(Step { rule, place: None, nexus: None, number: None });
    }

    /// Notes a rule about a nexus.
    pub fn note_nexus(&mut self, rule: Rule, nexus: usize) {
        self.steps.push(Step { rule, place: None, nexus: Some(nexus), number: None });
    }

    /// Notes a rule about a place.
    pub fn note_place(&mut self, rule: Rule, place: usize) {
        self.steps.push(Step { rule, place: Some(place), nexus: None, number: None });
    }

    /// Notes a rule about a nexus and a place.
    pub fn note_nexus_at(&mut self, rule: Rule, nexus: usize, place: usize) {
        self.steps.push(Step { rule, place: Some(place), nexus: Some(nexus), number: None });
    }

    /// Notes a rule about a place and a number.
    pub fn note_number(&mut self, rule: Rule, place: usize, number: u32) {
        self.steps.push(Step { rule, place: Some(place), nexus: None, number: Some(number) });
    }

    /// Whether the call established a set in a place or released the one there.
    pub fn acted_on(&self, place: usize) -> bool {
        let acts = [Rule::Releases, Rule::EstablishesWithKey, Rule::EstablishesWithoutKey];
        self.steps.iter().any(|step| acts.contains(&step.rule) && step.place == Some(place))
    }

    /// Whether a rule was at work.
    pub fn tells(&self, rule: Rule) -> bool {
        self.steps.iter().any(|step| step.rule == rule)
    }
}
