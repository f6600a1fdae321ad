//! 01, "Answer numbers", and 14 to 17 of 02, request 1: the refusals and their sense bytes; by 02, request 6, the faulty
//! byte that answer 8 carries. Answer 0, "done", is an `Ok`.

/// Sense key, ASC and ASCQ; zeros where 01 says "none".
pub type Sense = [u8; 3];

/// The sense of an answer that has none.
pub const NO_SENSE: Sense = [0, 0, 0];

/// The answer that carries the number of the faulty byte.
pub const FIELD_WRONG: u8 = 8;

/// Answers 1 to 17, in the order in which their checks run.
#[derive(Clone, Copy, PartialEq, Eq, PartialOrd, Ord, Debug)]
pub enum Refused {
    RecordNotWellFormed,
    NexusAbove15,
    ChangedByAnotherNexus,
    ChangedByVendorEvent,
    ProtocolNot20,
    PageNotSupported,
    PageLengthWrong,
    /// 02, request 6: "Answer 8 now carries the number of the faulty byte".
    FieldWrong {
        byte: usize,
    },
    FifthSupplementalKey,
    NoPlaceForLocalSet,
    KeyInstanceChanged,
    ParametersNotUsable,
    PlaceAbove4,
    BlockKindOrKeyNotKnown,
    BlockNotDecryptable,
    PlainWhileDecrypting,
    OpenedByNoKey,
}

/// A rule that a page breaks and the byte it points to; a rule about the page's length, which is answered 7, points to
/// none.
#[derive(Clone, Copy, PartialEq, Eq, Debug)]
pub struct Broken<Rule> {
    pub rule: Rule,
    pub byte: Option<usize>,
}

impl Refused {
    /// Each answer once, 8 with byte 0.
    pub const EVERY: [Refused; 17] = [
        Refused::RecordNotWellFormed,
        Refused::NexusAbove15,
        Refused::ChangedByAnotherNexus,
        Refused::ChangedByVendorEvent,
        Refused::ProtocolNot20,
        Refused::PageNotSupported,
        Refused::PageLengthWrong,
        Refused::FieldWrong { byte: 0 },
        Refused::FifthSupplementalKey,
        Refused::NoPlaceForLocalSet,
        Refused::KeyInstanceChanged,
        Refused::ParametersNotUsable,
        Refused::PlaceAbove4,
        Refused::BlockKindOrKeyNotKnown,
        Refused::BlockNotDecryptable,
        Refused::PlainWhileDecrypting,
        Refused::OpenedByNoKey,
    ];

    /// The answer to a page that breaks these rules, if it breaks any. 01: "Checks run in number order", so 7 before 8;
    /// 02, request 6: "the lowest-numbered byte of the page at which a rule of 01 first breaks".
    pub fn of_page<Rule>(broken: &[Broken<Rule>]) -> Option<Refused> {
        if broken.iter().any(|broken| broken.byte.is_none()) {
            return Some(Refused::PageLengthWrong);
        }
        let lowest = broken.iter().filter_map(|broken| broken.byte).min();
        lowest.map(|byte| Refused::FieldWrong { byte })
    }

    /// The number of the faulty byte, which answer 8 alone carries.
    pub fn faulty_byte(self) -> Option<usize> {
        match self {
            Refused::FieldWrong { byte } => Some(byte),
            _ => None,
        }
    }

    /// The column "No." of 01's table; 14 to 17 by 02, request 1.
    pub fn number(self) -> u8 {
        match self {
            Refused::RecordNotWellFormed => 1,
            Refused::NexusAbove15 => 2,
            Refused::ChangedByAnotherNexus => 3,
            Refused::ChangedByVendorEvent => 4,
            Refused::ProtocolNot20 => 5,
            Refused::PageNotSupported => 6,
            Refused::PageLengthWrong => 7,
            Refused::FieldWrong { .. } => FIELD_WRONG,
            Refused::FifthSupplementalKey => 9,
            Refused::NoPlaceForLocalSet => 10,
            Refused::KeyInstanceChanged => 11,
            Refused::ParametersNotUsable => 12,
            Refused::PlaceAbove4 => 13,
            Refused::BlockKindOrKeyNotKnown => 14,
            Refused::BlockNotDecryptable => 15,
            Refused::PlainWhileDecrypting => 16,
            Refused::OpenedByNoKey => 17,
        }
    }

    /// The column "Sense key/ASC/ASCQ" of 01's table; 02, request 1: "14 (no sense), 15 (7/74/01), 16 (7/74/02)
    /// and 17 (7/74/03)".
    pub fn sense(self) -> Sense {
        match self {
            Refused::RecordNotWellFormed | Refused::NexusAbove15 | Refused::PlaceAbove4 => NO_SENSE,
            Refused::BlockKindOrKeyNotKnown => NO_SENSE,
            Refused::ChangedByAnotherNexus => [0x6, 0x2A, 0x11],
            Refused::ChangedByVendorEvent => [0x6, 0x2A, 0x12],
            Refused::ProtocolNot20 | Refused::PageNotSupported => [0x5, 0x24, 0x00],
            Refused::PageLengthWrong => [0x5, 0x1A, 0x00],
            Refused::FieldWrong { .. } => [0x5, 0x26, 0x00],
            Refused::FifthSupplementalKey => [0x5, 0x55, 0x08],
            Refused::NoPlaceForLocalSet => [0x5, 0x55, 0x03],
            Refused::KeyInstanceChanged => [0x7, 0x2A, 0x13],
            Refused::ParametersNotUsable => [0x7, 0x74, 0x07],
            Refused::BlockNotDecryptable => [0x7, 0x74, 0x01],
            Refused::PlainWhileDecrypting => [0x7, 0x74, 0x02],
            Refused::OpenedByNoKey => [0x7, 0x74, 0x03],
        }
    }
}
