//! A text in another unit: every length and every time in it so many times as
//! large, as 02's request 5 compares two nets and their plans.

use second_reference::answer::Answer;
use std::ops::Range;

/// The keys of a text's lines, each with the places at which its numbers are
/// lengths or times; all others are vertices, counts, factors or weights.
type Keys = [(&'static str, Range<usize>)];

const NET: &Keys = &[
    ("root", 0..2),
    ("branch", 0..1),
    ("wire", 0..0),
    ("need", 0..1),
    ("sinks", 0..0),
    ("sink", 0..3),
];

const LISTING: &Keys = &[
    ("slack", 0..1),
    ("wire", 0..1),
    ("sinks", 0..0),
    ("leaf", 0..0),
    ("node", 2..4),
];

/// "every position, c, t and every a of the other multiplied", "with h, v and n
/// alike", and the weights too; none where the text is no net's.
pub fn net(text: &[u8], factor: i64) -> Option<Vec<u8>> {
    multiplied(NET, text, factor)
}

/// "the same parents", and "slack, wire and branch positions" so many times as
/// large; none where the text is no listing's.
pub fn listing(text: &[u8], factor: i64) -> Option<Vec<u8>> {
    multiplied(LISTING, text, factor)
}

fn multiplied(keys: &Keys, text: &[u8], factor: i64) -> Option<Vec<u8>> {
    let mut out = String::new();
    for line in std::str::from_utf8(text).ok()?.lines() {
        let (key, numbers) = line.split_once('=')?;
        let (_, growing) = keys.iter().find(|(name, _)| *name == key)?;
        let mut all = Vec::new();
        for (place, number) in numbers.split(',').enumerate() {
            let number: i128 = number.parse().ok()?;
            let by = if growing.contains(&place) { factor } else { 1 };
            all.push((number * by as i128).to_string());
        }
        out += &format!("{key}={}\n", all.join(","));
    }
    Some(out.into_bytes())
}

/// The same refusal, or figures so many times as large.
pub fn judged_alike(one: Answer, two: Answer, factor: i64) -> bool {
    let expected = Answer {
        slack: one.slack * factor,
        wire: one.wire * factor as u64,
        last: one.last * factor,
        ..one
    };
    two == expected
}

#[cfg(test)]
mod tests {
    use super::*;
    use crate::nets;
    use crate::ranges::{MICROMETRES, NANOMETRES};

    #[test]
    fn lengths_and_times_alone_grow() {
        let text = b"root=-1,2\nbranch=3\nwire=4,5\nneed=-6\nsinks=1\nsink=7,-8,9,10\n";
        let grown = b"root=-7,14\nbranch=21\nwire=4,5\nneed=-42\nsinks=1\nsink=49,-56,63,10\n";
        assert_eq!(net(text, 7).unwrap(), grown);
        let text = b"slack=-1\nwire=2\nsinks=2\nleaf=1,3\nleaf=2,3\nnode=3,0,-4,5\n";
        let grown = b"slack=-7\nwire=14\nsinks=2\nleaf=1,3\nleaf=2,3\nnode=3,0,-28,35\n";
        assert_eq!(listing(text, 7).unwrap(), grown);
        assert_eq!(net(text, 7), None);
    }

    #[test]
    fn the_ends_of_the_ranges_are_images() {
        let (small, large) = (nets::longest(&MICROMETRES), nets::longest(&NANOMETRES));
        assert_eq!(net(&small.text(), 1_000).unwrap(), large.text());
    }

    #[test]
    fn each_figure_counts() {
        let one = Answer::done(-2, 3, -1);
        assert!(judged_alike(one, Answer::done(-14, 21, -7), 7));
        for (slack, wire, best) in [(-13, 21, -7), (-14, 20, -7), (-14, 21, -1)] {
            assert!(!judged_alike(one, Answer::done(slack, wire, best), 7));
        }
    }
}
