//! Lines of a text, and the spelling and range of their numbers.

use crate::answer::Refusal;

/// The lines of one text, in order; `line` is the one due next.
pub struct Lines<'a> {
    rest: &'a [u8],
    text: u8,
    pub line: usize,
}

impl<'a> Lines<'a> {
    pub fn new(bytes: &'a [u8], text: u8, limit: usize) -> Result<Lines<'a>, Refusal> {
        if bytes.len() > limit {
            return Err(Refusal {
                number: 1,
                text,
                line: 0,
            });
        }
        Ok(Lines {
            rest: bytes,
            text,
            line: 1,
        })
    }

    pub fn refuse(&self, number: u8) -> Refusal {
        Refusal {
            number,
            text: self.text,
            line: self.line,
        }
    }

    /// The due line's numbers as spelt, if it is `key` and `count` numbers
    /// between commas and ends with its end byte. Does not step on.
    pub fn due(&self, key: &str, count: usize) -> Result<Vec<&'a [u8]>, Refusal> {
        let end = self
            .rest
            .iter()
            .position(|&b| b == 10)
            .ok_or(self.refuse(2))?;
        let numbers = self.rest[..end]
            .strip_prefix(key.as_bytes())
            .ok_or(self.refuse(2))?;
        let numbers: Vec<&[u8]> = numbers.split(|&b| b == b',').collect();
        if numbers.len() != count || !numbers.iter().all(|n| well_spelt(n)) {
            return Err(self.refuse(2));
        }
        Ok(numbers)
    }

    /// The number's value, or refusal 3 on the due line.
    pub fn value(&self, number: &[u8], low: i64, high: i64) -> Result<i64, Refusal> {
        in_range(number, low, high).ok_or(self.refuse(3))
    }

    pub fn step(&mut self) {
        let end = self
            .rest
            .iter()
            .position(|&b| b == 10)
            .expect("the line was read");
        self.rest = &self.rest[end + 1..];
        self.line += 1;
    }

    pub fn finish(&self) -> Result<(), Refusal> {
        if self.rest.is_empty() {
            Ok(())
        } else {
            Err(self.refuse(4))
        }
    }
}

/// Decimal digits, `-` before a negative, no plus, no leading zero, no `-0`.
pub fn well_spelt(number: &[u8]) -> bool {
    let digits = number.strip_prefix(b"-").unwrap_or(number);
    let negative = digits.len() < number.len();
    match digits {
        [] => false,
        [b'0'] => !negative,
        [b'0', ..] => false,
        _ => digits.iter().all(u8::is_ascii_digit),
    }
}

/// The value of a well-spelt number, if it lies in the range.
pub fn in_range(number: &[u8], low: i64, high: i64) -> Option<i64> {
    // No leading zeros: whatever is longer than this is beyond every range.
    if number.len() > 17 {
        return None;
    }
    let spelt = std::str::from_utf8(number).ok()?;
    let value: i64 = spelt.parse().ok()?;
    (low <= value && value <= high).then_some(value)
}
