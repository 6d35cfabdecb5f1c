//! The ranges in which nets are drawn.

use crate::random::Random;
use second_reference::net::{ARRIVAL, BRANCH, COORDINATE, NEED, PIN_LIMIT};

#[derive(Clone, Copy, Debug)]
pub struct Ranges {
    /// How many units of these positions it has.
    pub micrometre: i64,
    /// How far from the origin x and y may be.
    pub coordinate: i64,
    pub pin_limit: i64,
    pub branch: (i64, i64),
    /// That every net reaches.
    pub low_need: i64,
    pub arrival: (i64, i64),
}

/// The format's.
pub const NANOMETRES: Ranges = Ranges {
    micrometre: 1_000,
    coordinate: COORDINATE,
    pin_limit: PIN_LIMIT,
    branch: BRANCH,
    low_need: NEED.0,
    arrival: ARRIVAL,
};

/// Those before request 5: numbers 1,000 times as large are in the format's
/// ranges, and those at an end are at an end there.
pub const MICROMETRES: Ranges = Ranges {
    micrometre: 1,
    coordinate: 100_000,
    pin_limit: 40_000,
    branch: (1, 1_000_000),
    low_need: -2_000_000_000_000,
    arrival: (-1_000_000_000_000, 1_000_000_000_000),
};

/// Mostly the format's; in the others numbers are small and tie more often.
pub fn any(r: &mut Random) -> &'static Ranges {
    r.pick(&[&NANOMETRES, &NANOMETRES, &NANOMETRES, &MICROMETRES])
}
