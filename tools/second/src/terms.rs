//! What scores are asked for with (02, request 8): in range, often at an end or
//! about the slack, and out of it.

use crate::random::Random;
use second_reference::terms::Terms;

/// Of A and of B.
pub const WEIGHT: (i64, i64) = (0, 1_024);
pub const CAP: (i64, i64) = (0, 1_000_000_000_000);
/// Of the lesser of slack and cap.
pub const LOWEST: i64 = -1_000_000_000_000;

/// Past the ends, far out, equal to a number in range modulo a word's size, and
/// the ends of all numbers.
pub const OUT_WEIGHTS: [i64; 14] = [
    i64::MIN,
    i64::MIN + 1,
    i64::MIN + WEIGHT.1,
    -(1 << 32),
    -WEIGHT.1 - 1,
    -WEIGHT.1,
    -1,
    WEIGHT.1 + 1,
    2 * WEIGHT.1,
    1 << 16,
    (1 << 32) + 7,
    1 << 53,
    i64::MAX - 1,
    i64::MAX,
];

pub const OUT_CAPS: [i64; 13] = [
    i64::MIN,
    i64::MIN + 1,
    -(1 << 53),
    LOWEST - 1,
    LOWEST,
    LOWEST + 1,
    -1,
    CAP.1 + 1,
    1 << 40,
    1_000 * CAP.1,
    1 << 53,
    i64::MAX - 1,
    i64::MAX,
];

/// Whether a tree of this slack has a score.
pub fn are_in_range(terms: Terms, slack: i64) -> bool {
    let within = |value: i64, (low, high): (i64, i64)| low <= value && value <= high;
    let weights = [terms.alpha, terms.beta].iter().all(|&w| within(w, WEIGHT));
    weights && within(terms.cap, CAP) && slack.min(terms.cap) >= LOWEST
}

/// In range, for a tree of this slack.
pub fn any(r: &mut Random, slack: i64) -> Terms {
    Terms::new(weight(r), weight(r), cap(r, slack))
}

pub fn weight(r: &mut Random) -> i64 {
    let (low, high) = WEIGHT;
    let any = r.between(low, high);
    r.pick(&[low, high, low + 1, high - 1, high / 2, any, any, any])
}

/// At an end, about the slack, somewhere below it, or anywhere.
pub fn cap(r: &mut Random, slack: i64) -> i64 {
    let (low, high) = CAP;
    let slack = slack.clamp(low, high);
    let near = slack + r.between(-1, 1);
    let below = r.between(low, slack);
    let any = r.between(low, high);
    let cap = r.pick(&[low, high, high - 1, near, near, below, below, any]);
    cap.clamp(low, high)
}

/// One, two or all of them out of range.
pub fn spoilt(r: &mut Random, mut terms: Terms) -> Terms {
    let which = 1 + r.index(7);
    if which & 1 > 0 {
        terms.alpha = r.pick(&OUT_WEIGHTS);
    }
    if which & 2 > 0 {
        terms.beta = r.pick(&OUT_WEIGHTS);
    }
    if which & 4 > 0 {
        terms.cap = r.pick(&OUT_CAPS);
    }
    terms
}

#[cfg(test)]
mod tests {
    use super::*;

    #[test]
    fn drawn_in_range_and_out_of_it() {
        let mut r = Random::new(8);
        for _ in 0..2000 {
            let slack = r.between(LOWEST, 2 * CAP.1);
            let terms = any(&mut r, slack);
            assert!(are_in_range(terms, slack), "{terms:?} {slack}");
            let terms = spoilt(&mut r, terms);
            assert!(!are_in_range(terms, slack), "{terms:?} {slack}");
        }
    }

    #[test]
    fn a_low_slack_is_out_of_range() {
        let terms = Terms::new(0, 0, 0);
        assert!(are_in_range(terms, LOWEST));
        assert!(!are_in_range(terms, LOWEST - 1));
    }
}
