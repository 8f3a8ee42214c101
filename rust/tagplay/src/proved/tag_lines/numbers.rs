// Made of crates/tag_lines/src/numbers.rt, where the contracts are, by rust/generate.

//! Decimal numbers.

/// Parses a word of decimal digits only, if its value fits in 64 bits. The words of a line are never empty.
pub fn number(word: &[u8]) -> Option<u64> {
    let mut value = 0u64;
    for byte in word {
        if !byte.is_ascii_digit() {
            return None;
        }
        value = match with_digit(value, *byte - b'0') {
            Some(longer) => longer,
            None => return None,
        };
    }
    Some(value)
}

/// The number with one more digit, if it fits.
fn with_digit(value: u64, digit: u8) -> Option<u64> {
    match value.checked_mul(10) {
        Some(tens) => tens.checked_add(u64::from(digit)),
        None => None,
    }
}

/// Parses a word of decimal digits only, if its value fits in 32 bits.
pub fn short_number(word: &[u8]) -> Option<u32> {
    let value = number(word)?;
    u32::try_from(value).ok()
}
