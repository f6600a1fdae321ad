//! Whole numbers in digits.

/// The number that digits tell, zeros before them included; nothing for any other text. One above 64 bits counts as the
/// largest of them.
pub fn number(digits: &str, radix: u32) -> Option<u64> {
    let is_number = !digits.is_empty() && digits.chars().all(|digit| digit.is_digit(radix));
    is_number.then(|| u64::from_str_radix(digits, radix).unwrap_or(u64::MAX))
}
