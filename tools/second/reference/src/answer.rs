//! What a call answers.

/// Number, text and line as the table of refusals has them.
#[derive(Clone, Copy, Debug, PartialEq, Eq)]
pub struct Refusal {
    pub number: u8,
    pub text: u8,
    pub line: usize,
}

/// Where nothing is refused.
const NONE: Refusal = Refusal {
    number: 0,
    text: 0,
    line: 0,
};

/// All figures of a call. At a refusal the last three are 0, otherwise the
/// first three.
#[derive(Clone, Copy, Debug, PartialEq, Eq)]
pub struct Answer {
    pub number: u8,
    pub text: u8,
    pub line: usize,
    pub slack: i64,
    pub wire: u64,
    /// Bytes written for plan, best for judge.
    pub last: i64,
}

impl Answer {
    pub fn refused(r: Refusal) -> Answer {
        Answer {
            number: r.number,
            text: r.text,
            line: r.line,
            slack: 0,
            wire: 0,
            last: 0,
        }
    }

    pub fn done(slack: i64, wire: u64, last: i64) -> Answer {
        Answer {
            number: 0,
            text: 0,
            line: 0,
            slack,
            wire,
            last,
        }
    }

    pub fn of(result: Result<(i64, u64, i64), Refusal>) -> Answer {
        match result {
            Ok((slack, wire, last)) => Answer::done(slack, wire, last),
            Err(refusal) => Answer::refused(refusal),
        }
    }
}

/// All figures of a score call. At a refusal the score is plus zero, otherwise
/// the first three are 0.
#[derive(Clone, Copy, Debug, PartialEq, Eq)]
pub struct Score {
    pub number: u8,
    pub text: u8,
    pub line: usize,
    /// The binary64's bits, since minus zero is equal to plus zero.
    pub bits: u64,
}

impl Score {
    pub fn of(result: Result<u64, Refusal>) -> Score {
        let (refusal, bits) = match result {
            Ok(bits) => (NONE, bits),
            Err(refusal) => (refusal, 0),
        };
        Score {
            number: refusal.number,
            text: refusal.text,
            line: refusal.line,
            bits,
        }
    }
}

/// All figures of a deletion. At a refusal the last two are 0, otherwise the
/// first three.
#[derive(Clone, Copy, Debug, PartialEq, Eq)]
pub struct Deletion {
    pub number: u8,
    pub text: u8,
    pub line: usize,
    pub net_bytes: usize,
    pub listing_bytes: usize,
}

impl Deletion {
    pub fn of(result: Result<(usize, usize), Refusal>) -> Deletion {
        let (refusal, (net_bytes, listing_bytes)) = match result {
            Ok(bytes) => (NONE, bytes),
            Err(refusal) => (refusal, (0, 0)),
        };
        Deletion {
            number: refusal.number,
            text: refusal.text,
            line: refusal.line,
            net_bytes,
            listing_bytes,
        }
    }
}
