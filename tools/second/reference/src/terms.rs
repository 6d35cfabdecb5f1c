//! What a score is asked for with.

/// Any numbers: which are in range each reference says itself.
#[derive(Clone, Copy, Debug, PartialEq, Eq)]
pub struct Terms {
    /// A: alpha in 1024ths.
    pub alpha: i64,
    /// B: beta in 1024ths.
    pub beta: i64,
    pub cap: i64,
}

impl Terms {
    pub fn new(alpha: i64, beta: i64, cap: i64) -> Terms {
        Terms { alpha, beta, cap }
    }
}
