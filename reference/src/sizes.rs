//! The sizes of 01, "What the controller holds".

/// 01: "nexuses 0 to 15".
pub const NEXUSES: usize = 16;
/// 01: "set places 0 to 4"; place 0 holds the ALL I_T NEXUS set, 1 to 4 hold LOCAL sets.
pub const PLACES: usize = 5;
/// 01: "key (32 bytes)".
pub const KEY_BYTES: usize = 32;
/// 01: "up to 4 supplemental keys".
pub const SUPPLEMENTAL_KEYS: usize = 4;
/// 01: "U-KAD (0 to 32 bytes)".
pub const U_KAD_BYTES: usize = 32;
/// 01: "A-KAD (0 to 12 bytes)".
pub const A_KAD_BYTES: usize = 12;
