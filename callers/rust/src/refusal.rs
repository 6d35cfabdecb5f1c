//! A refusal, and its plain words.

use std::fmt;

/// Why nothing was planned, measured, scored or deleted.
#[derive(Clone, Copy, Debug, PartialEq, Eq)]
pub struct Refusal {
    /// 1 to 16.
    pub number: u8,
    /// 1 the net, 2 the listing, 0 neither.
    pub text: u8,
    /// From 1; 0 where no line is meant.
    pub line: usize,
}

impl Refusal {
    pub(crate) fn check(number: u8, text: u8, line: usize) -> Result<(), Refusal> {
        match number {
            0 => Ok(()),
            _ => Err(Refusal { number, text, line }),
        }
    }

    fn words(&self) -> &'static str {
        match (self.number, self.line) {
            (1, _) => "the text is over its length",
            (2, _) => "the line due here is missing, lacks its newline, or is misspelt",
            (3, _) => "a number is out of range",
            (4, _) => "bytes follow the last line",
            (5, _) => "no legal tree has the needed slack",
            (6, _) => "the output is shorter than the listing",
            (7, _) => "the number of sinks is not the net's",
            (8, _) => "the parent is a sink",
            (9, 0) => "the root has not exactly one child",
            (9, _) => "this branch point has not exactly two children",
            (10, _) => "this vertex is not reached from the root",
            (11, _) => "the stated slack is not the tree's worst slack",
            (12, _) => "the stated wire is not the tree's wire",
            (13, _) => "the sink is too far from the root",
            (14, _) => "alpha, beta or the cap is out of range, or the slack too low",
            (15, _) => "the net has no sink of this number",
            (16, _) => "the net has no other sink",
            _ => "unknown refusal",
        }
    }

    /// What is refused: a text, else the output, the score or the sink.
    fn subject(&self) -> &'static str {
        match self.text {
            1 => "net",
            2 => "listing",
            _ => match self.number {
                14 => "score",
                15 | 16 => "sink",
                _ => "output",
            },
        }
    }
}

impl fmt::Display for Refusal {
    fn fmt(&self, f: &mut fmt::Formatter<'_>) -> fmt::Result {
        f.write_str(self.subject())?;
        if self.line > 0 {
            write!(f, " line {}", self.line)?;
        }
        write!(f, ": {} (refusal {})", self.words(), self.number)
    }
}

impl std::error::Error for Refusal {}
