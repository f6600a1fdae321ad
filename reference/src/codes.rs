//! The codes of 01, "The Set Data Encryption page (0010h)".

/// 01: "SCOPE other than 0 PUBLIC, 1 LOCAL, 2 ALL". In a set, 0 marks an empty place.
pub mod scope {
    pub const PUBLIC: u8 = 0;
    pub const LOCAL: u8 = 1;
    pub const ALL: u8 = 2;
}

/// 01: "encryption mode 0 DISABLE, 1 EXTERNAL, 2 ENCRYPT".
pub mod encryption {
    pub const DISABLE: u8 = 0;
    pub const EXTERNAL: u8 = 1;
    pub const ENCRYPT: u8 = 2;
}

/// 01: "decryption mode 0 DISABLE, 1 RAW, 2 DECRYPT, 3 MIXED".
pub mod decryption {
    pub const DISABLE: u8 = 0;
    pub const RAW: u8 = 1;
    pub const DECRYPT: u8 = 2;
    pub const MIXED: u8 = 3;
}

/// The CEEM values that have blocks checked (000, table 8); 02, request 2: "CEEM 10b or 11b".
pub mod ceem {
    pub const REPORTS_EXTERNAL: u8 = 0b10;
    pub const REPORTS_ENCRYPT: u8 = 0b11;
}

/// 02, request 1: "block kind 0 plain, 1 encrypted under algorithm 1, 2 encrypted otherwise".
pub mod block_kind {
    pub const PLAIN: u8 = 0;
    pub const ENCRYPTED_UNDER_ALGORITHM_1: u8 = 1;
    pub const ENCRYPTED_OTHERWISE: u8 = 2;
}

/// 02, request 1: "the key that the cipher engine says opened it, 0 main, 1 to 4 supplemental, 255 none".
pub mod opening_key {
    pub const MAIN: u8 = 0;
    pub const NONE: u8 = 255;
}

/// 01: "algorithm 1".
pub const ALGORITHM: u8 = 1;
/// The largest value of the two bits of CEEM (01: "CEEM bits 7–6").
pub const LARGEST_CEEM: u8 = 3;
/// 01: "the Tape Data Encryption security protocol (20h)".
pub const PROTOCOL: u8 = 0x20;

/// The page codes 01 names.
pub mod page_code {
    pub const IN_SUPPORT: u16 = 0x0000;
    pub const OUT_SUPPORT: u16 = 0x0001;
    pub const SET_DATA_ENCRYPTION: u16 = 0x0010;
    pub const MANAGEMENT_CAPABILITIES: u16 = 0x0012;
    pub const STATUS: u16 = 0x0020;
}
