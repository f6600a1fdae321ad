//! The names that 01 and 02 give to calls and codes.

/// The calls by kind, as 02's request 3 names them; 1 and 2 are SECURITY PROTOCOL IN and OUT.
pub const CALLS: [&str; 12] = [
    "power-on",
    "in",
    "out",
    "write",
    "logical unit reset",
    "demount",
    "nexus reservation loss",
    "device reservation loss",
    "preempt",
    "microcode",
    "vendor release",
    "read",
];

/// 01: "0 PUBLIC, 1 LOCAL, 2 ALL".
pub const SCOPES: [&str; 3] = ["PUBLIC", "LOCAL", "ALL"];
/// 01: "encryption mode 0 DISABLE, 1 EXTERNAL, 2 ENCRYPT".
pub const ENCRYPTION_MODES: [&str; 3] = ["DISABLE", "EXTERNAL", "ENCRYPT"];
/// 01: "decryption mode 0 DISABLE, 1 RAW, 2 DECRYPT, 3 MIXED".
pub const DECRYPTION_MODES: [&str; 4] = ["DISABLE", "RAW", "DECRYPT", "MIXED"];
/// 02, request 1: "block kind 0 plain, 1 encrypted under algorithm 1, 2 encrypted otherwise".
pub const BLOCK_KINDS: [&str; 3] = ["plain", "encrypted", "otherwise"];

/// What became of a block that was written, by the reply's code: "0 clear, 1 external, 2 encrypted".
pub const WRITTEN: [&str; 3] = ["clear", "external", "encrypted"];
/// What becomes of a block that is read: "0 plain, 1 raw, 2 decrypted".
pub const READ: [&str; 3] = ["plain", "raw", "decrypted"];

/// A code's name.
pub fn name_of(names: &[&'static str], code: u8) -> Option<&'static str> {
    names.get(usize::from(code)).copied()
}

/// The code that has a name, in capital letters or small ones.
pub fn code_of(names: &[&str], word: &str) -> Option<u8> {
    names.iter().position(|name| name.eq_ignore_ascii_case(word)).map(|code| code as u8)
}
