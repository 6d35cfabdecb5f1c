//! The Kraft maximum from its definition, in exact arithmetic.

use crate::net::Net;

/// The largest whole s with the sum over the sinks of 2^-floor((a' - s)/c) at
/// most 1.
pub fn maximum(net: &Net) -> i128 {
    maximum_of(&net.own_slacks(), net.branch as i128)
}

pub fn maximum_of(own: &[i128], c: i128) -> i128 {
    let least = *own.iter().min().expect("a net has a sink");
    // At `low` each floor is at least n, and n * 2^-n is at most 1. At `high` a
    // floor is -1. In between the sum only grows with s.
    let mut low = least - c * own.len() as i128;
    let mut high = least + c;
    while low < high {
        let middle = high - (high - low).div_euclid(2);
        if at_most_one(own, c, middle) {
            low = middle;
        } else {
            high = middle - 1;
        }
    }
    low
}

pub fn at_most_one(own: &[i128], c: i128, s: i128) -> bool {
    let floors: Vec<i128> = own.iter().map(|a| (a - s).div_euclid(c)).collect();
    if floors.iter().any(|&f| f < 0) {
        return false;
    }
    let holds = carried_to_one(&floors);
    if let Some(direct) = whole_sum(&floors) {
        assert_eq!(
            holds,
            direct.0 <= direct.1,
            "two sums of the same powers differ"
        );
    }
    holds
}

/// From the smallest power up: `units` powers 2^-level, rounded up to whole
/// powers of each higher level. Rounding up changes no comparison, as all that
/// is still to come, and 1, are whole multiples of the higher power.
fn carried_to_one(floors: &[i128]) -> bool {
    let mut sorted = floors.to_vec();
    sorted.sort();
    let mut units: u128 = 0;
    let mut level = *sorted.last().expect("a net has a sink");
    while let Some(f) = sorted.pop() {
        units = raised(units, level - f) + 1;
        level = f;
    }
    raised(units, level) <= 1
}

/// units / 2^steps, rounded up.
fn raised(units: u128, steps: i128) -> u128 {
    match units {
        0 => 0,
        _ if steps > 64 => 1,
        _ => units.div_ceil(1 << steps),
    }
}

/// The sum as a whole number of 2^-m, and 1 so stated, where m is small.
pub fn whole_sum(floors: &[i128]) -> Option<(u128, u128)> {
    let m = *floors.iter().max()?;
    if m > 110 || floors.iter().any(|&f| f < 0) {
        return None;
    }
    Some((floors.iter().map(|f| 1u128 << (m - f)).sum(), 1 << m))
}
