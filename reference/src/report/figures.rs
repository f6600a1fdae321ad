//! Numbers as a page writes them.

/// With a comma before each three digits: 8,190.
pub fn grouped(number: u64) -> String {
    let digits = number.to_string();
    let groups: Vec<&[u8]> = digits.as_bytes().rchunks(3).rev().collect();
    String::from_utf8_lossy(&groups.join(&b',')).into_owned()
}

/// So many of something.
pub fn counted(number: u64, one: &str, many: &str) -> String {
    format!("{} {}", grouped(number), if number == 1 { one } else { many })
}

/// So many writes.
pub fn writes(number: u64) -> String {
    counted(number, "write", "writes")
}

/// An amount in pence.
pub fn pence(amount: u64) -> String {
    counted(amount, "penny", "pence")
}

/// An amount in pence as pounds.
pub fn pounds(amount: u64) -> String {
    format!("£{}.{:02}", grouped(amount / 100), amount % 100)
}

/// A part of a whole, in per cent with one decimal; the whole isn't 0.
pub fn per_cent(part: u64, whole: u64) -> String {
    let tenths = part * 1000 / whole;
    format!("{}.{}%", tenths / 10, tenths % 10)
}
