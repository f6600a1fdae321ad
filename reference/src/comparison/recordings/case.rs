//! The recordings that are tried, by name.

use std::fmt;

/// What a recording is about.
#[derive(Clone, Copy, PartialEq, Eq, PartialOrd, Ord, Debug)]
pub enum Group {
    Under8Bytes,
    Total,
    CutOrLengthened,
    FirstOffset,
    PageBytesOffset,
    EventCount,
    CountAndOffset,
    NumbersThatWrap,
    LittleEndian,
    PartEvent,
    KindAbove11,
    SupportFlag,
    UnusedField,
    PagePastEnd,
    TooLong,
    TwoWrongThings,
    SoundNeighbour,
    NoEvents,
    OddPages,
    NumbersLeftToCalls,
    Largest,
    Examples,
    Sessions,
    ClaimRows,
    ClaimAbove15,
    ClaimOutcomes,
    ClaimPowerOns,
    ClaimLocks,
    ClaimCounts,
    ClaimMostWrites,
    ClaimRates,
    ClaimAmounts,
    ClaimWrongFiles,
    ReasonAnswers,
    ReasonTouches,
    ReasonLocks,
    ReasonFlags,
    ReasonPowerOns,
    ReasonSessions,
    ReasonLimits,
    ReasonWrongFiles,
    SalvageLengths,
    SalvageOffsets,
    SalvageHeaders,
    SalvageTails,
    SalvageEvents,
    SalvagePages,
    SalvageSpareBytes,
    SalvageRuns,
    SalvageLargest,
    RandomSound,
    RandomHeader,
    RandomEvent,
    RandomPageBounds,
    RandomCut,
    RandomLengthened,
    RandomBit,
    RandomEventMoved,
    RandomOverwritten,
    RandomOffByOne,
    RandomPageOffset,
    RandomTail,
    RandomBytes,
    RandomWrongEvents,
    RandomGrown,
}

impl Group {
    /// Every group of the replay's comparison with the number of differently named recordings that a run has to try.
    pub const EVERY: [(Group, usize); 31] = [
        (Group::Under8Bytes, 33),
        (Group::Total, 30),
        (Group::CutOrLengthened, 13),
        (Group::FirstOffset, 24),
        (Group::PageBytesOffset, 27),
        (Group::EventCount, 15),
        (Group::CountAndOffset, 20),
        (Group::NumbersThatWrap, 14),
        (Group::LittleEndian, 3),
        (Group::PartEvent, 21),
        (Group::KindAbove11, 258),
        (Group::SupportFlag, 12),
        (Group::UnusedField, 192),
        (Group::PagePastEnd, 68),
        (Group::TooLong, 17),
        (Group::TwoWrongThings, 105),
        (Group::SoundNeighbour, 17),
        (Group::NoEvents, 7),
        (Group::OddPages, 14),
        (Group::NumbersLeftToCalls, 17),
        (Group::Largest, 8),
        (Group::Examples, 10),
        (Group::Sessions, 4),
        (Group::RandomSound, 1),
        (Group::RandomHeader, 4),
        (Group::RandomEvent, 5),
        (Group::RandomPageBounds, 2),
        (Group::RandomCut, 1),
        (Group::RandomLengthened, 1),
        (Group::RandomBit, 1),
        (Group::RandomEventMoved, 1),
    ];

    /// The groups that the claim's comparison has besides.
    pub const OF_CLAIMS: [(Group, usize); 10] = [
        (Group::ClaimRows, 27),
        (Group::ClaimAbove15, 21),
        (Group::ClaimOutcomes, 34),
        (Group::ClaimPowerOns, 14),
        (Group::ClaimLocks, 144),
        (Group::ClaimCounts, 48),
        (Group::ClaimMostWrites, 11),
        (Group::ClaimRates, 4),
        (Group::ClaimAmounts, 30),
        (Group::ClaimWrongFiles, 12),
    ];

    /// The groups of the reasons' comparison.
    pub const OF_REASONS: [(Group, usize); 8] = [
        (Group::ReasonAnswers, 15),
        (Group::ReasonTouches, 154),
        (Group::ReasonLocks, 39),
        (Group::ReasonFlags, 31),
        (Group::ReasonPowerOns, 10),
        (Group::ReasonSessions, 167),
        (Group::ReasonLimits, 5),
        (Group::ReasonWrongFiles, 12),
    ];

    /// The groups that the salvage's comparison has besides.
    pub const OF_SALVAGES: [(Group, usize); 16] = [
        (Group::SalvageLengths, 119),
        (Group::SalvageOffsets, 265),
        (Group::SalvageHeaders, 170),
        (Group::SalvageTails, 229),
        (Group::SalvageEvents, 271),
        (Group::SalvagePages, 187),
        (Group::SalvageSpareBytes, 90),
        (Group::SalvageRuns, 176),
        (Group::SalvageLargest, 55),
        (Group::RandomOverwritten, 4),
        (Group::RandomOffByOne, 2),
        (Group::RandomPageOffset, 3),
        (Group::RandomTail, 3),
        (Group::RandomBytes, 1),
        (Group::RandomWrongEvents, 2),
        (Group::RandomGrown, 2),
    ];

    /// The groups of random recordings, with the ways of each to damage them.
    pub fn of_random() -> impl Iterator<Item = (Group, usize)> {
        Group::EVERY.into_iter().filter(|(group, _)| group.is_random())
    }

    /// Whether it is of the random part.
    pub fn is_random(self) -> bool {
        self >= Group::RandomSound
    }
}

impl fmt::Display for Group {
    fn fmt(&self, formatter: &mut fmt::Formatter) -> fmt::Result {
        formatter.write_str(match self {
            Group::Under8Bytes => "under 8 bytes",
            Group::Total => "total not the length",
            Group::CutOrLengthened => "length not the total",
            Group::FirstOffset => "offset of the first event not 8",
            Group::PageBytesOffset => "offset of the page bytes off",
            Group::EventCount => "event count off",
            Group::CountAndOffset => "event count and offset of the page bytes moved together",
            Group::NumbersThatWrap => "header numbers right but for a multiple of 65,536",
            Group::LittleEndian => "header's numbers little-endian",
            Group::PartEvent => "a part event",
            Group::KindAbove11 => "kinds 12 to 255",
            Group::SupportFlag => "support flag above 1",
            Group::UnusedField => "unused field not zero",
            Group::PagePastEnd => "page past the page bytes",
            Group::TooLong => "65,536 bytes and more",
            Group::TwoWrongThings => "two wrong things",
            Group::SoundNeighbour => "sound neighbours of wrong files",
            Group::NoEvents => "no events",
            Group::OddPages => "odd pages that aren't wrong",
            Group::NumbersLeftToCalls => "numbers left to the calls",
            Group::Largest => "the largest recordings",
            Group::Examples => "P1 to P10",
            Group::Sessions => "sessions",
            group => group.beside_replay(),
        })
    }
}

impl Group {
    /// The name of one of the claim's groups, of the reasons', of the salvage's or of the random ones.
    fn beside_replay(self) -> &'static str {
        match self {
            Group::ClaimRows => "writes by row and column",
            Group::ClaimAbove15 => "writes of nexuses above 15",
            Group::ClaimOutcomes => "writes by what decides them",
            Group::ClaimPowerOns => "writes around power-on",
            Group::ClaimLocks => "writes of locked nexuses",
            Group::ClaimCounts => "counts of one to four digits",
            Group::ClaimMostWrites => "the most writes",
            Group::ClaimRates => "rates",
            Group::ClaimAmounts => "amounts",
            Group::ClaimWrongFiles => "sessions of writes in wrong files",
            Group::ReasonAnswers => "reasons by answer",
            Group::ReasonTouches => "sets in use that are touched",
            Group::ReasonLocks => "which page is the lock",
            Group::ReasonFlags => "which call raised a flag",
            Group::ReasonPowerOns => "reasons around power-on",
            Group::ReasonSessions => "the claim's sessions",
            Group::ReasonLimits => "numbers of events and nexuses",
            Group::ReasonWrongFiles => "reasons of wrong files",
            Group::SalvageLengths => "lengths at the limits",
            Group::SalvageOffsets => "stored page offsets",
            Group::SalvageHeaders => "header numbers that lie",
            Group::SalvageTails => "tails cut, overwritten or grown",
            Group::SalvageEvents => "a wrong event by kind, rule and position",
            Group::SalvagePages => "pages at the end of the page bytes",
            Group::SalvageSpareBytes => "page bytes that no kept event uses",
            Group::SalvageRuns => "runs of events",
            Group::SalvageLargest => "the most events and page bytes",
            Group::RandomSound => "random, sound",
            Group::RandomHeader => "random, a header number changed",
            Group::RandomEvent => "random, a field of an event changed",
            Group::RandomPageBounds => "random, a page at the bounds",
            Group::RandomCut => "random, cut",
            Group::RandomLengthened => "random, lengthened",
            Group::RandomBit => "random, bits flipped",
            Group::RandomEventMoved => "random, an event dropped, doubled or swapped",
            Group::RandomOverwritten => "random, the header overwritten",
            Group::RandomOffByOne => "random, header numbers off by one",
            Group::RandomPageOffset => "random, the stored page offset moved",
            Group::RandomTail => "random, the tail lost",
            Group::RandomBytes => "random, bytes changed",
            Group::RandomWrongEvents => "random, events made wrong",
            Group::RandomGrown => "random, grown",
            _ => unreachable!("the others are named above"),
        }
    }
}

/// A recording to be tried.
#[derive(Clone, Debug)]
pub struct Case {
    pub group: Group,
    pub name: String,
    pub file: Vec<u8>,
}

/// Where recordings go.
pub type Sink<'sink> = dyn FnMut(Case) + 'sink;

/// Hands a recording over.
pub fn put(sink: &mut Sink, group: Group, name: impl Into<String>, file: Vec<u8>) {
    sink(Case { group, name: name.into(), file });
}
