//! Numbers as decimal digits.

/// Room for the digits of a number.
pub struct Buffer {
    digits: [u8; 20],
}

impl Buffer {
    /// Empty room.
    pub fn new() -> Buffer {
        Buffer { digits: [0; 20] }
    }

    /// The decimal digits of a number.
    pub fn format<N: Into<u64>>(&mut self, number: N) -> &str {
        let (mut rest, mut at) = (number.into(), self.digits.len());
        loop {
            at -= 1;
            self.digits[at] = b'0' + (rest % 10) as u8;
            rest /= 10;
            if rest == 0 {
                break;
            }
        }
        core::str::from_utf8(&self.digits[at..]).unwrap_or_default()
    }
}
