//! A sink's line, `sink=X,Y,a,w`, in every spelling of its weight. What must be
//! told follows from how each was made: by all three plans and by judge.

use super::far;
use crate::damage;
use crate::nets::{self, line_of};
use crate::pins;
use crate::random::Random;
use crate::session::Session;
use repeater_tree::{LISTING_LENGTH, NET_LENGTH};
use second_reference::net::{Net, NEED, WEIGHT};

/// What follows the required arrival where it is misspelt: no weight, two of
/// them, other signs, and numbers that are no numbers.
const MISSPELT: [&str; 24] = [
    "", ",", ",,1", ",1,", ",1,1", ",0,0", ",1,x", ";1", " 1", ", 1", ",1 ", ",\t1", ",-", ",-0",
    ",+1", ",00", ",01", ",-01", ",1.0", ",1e3", ",x", ",1\r", ",1\0", ",0x1",
];

/// Well spelt, and out of the range.
fn out_of_range() -> Vec<String> {
    let few = [
        "0",
        "-1",
        "1001",
        "-1000",
        "1000000",
        "65537",
        "4294967297",
        "18446744073709551617",
    ];
    let many = [20, 39, 3000].map(|digits| "9".repeat(digits));
    few.map(str::to_string).into_iter().chain(many).collect()
}

/// On both sides of each limit and in every spelling, on any sink's line.
pub fn all(s: &mut Session, r: &mut Random) {
    let n = r.between(1, 4) as usize;
    let (net, i) = (nets::any(r, n), r.index(n));
    within(s, &net, i);
    let text = net.text();
    for end in MISSPELT {
        refused(s, r, &ended(&text, i, end), 2, line_of(i));
    }
    for weight in out_of_range() {
        refused(s, r, &ended(&text, i, &format!(",{weight}")), 3, line_of(i));
    }
    as_before(s, r, &text, i);
    far_too(s, r, net, i);
    filled(s, r, &text, i);
}

/// Both ends and their neighbours.
fn within(s: &mut Session, net: &Net, i: usize) {
    let mut net = net.clone();
    for weight in [WEIGHT.0, WEIGHT.0 + 1, WEIGHT.1 - 1, WEIGHT.1] {
        net.sinks[i].weight = weight;
        net.need = NEED.0;
        let text = net.text();
        for answer in [
            s.plan(&text, LISTING_LENGTH).answer,
            s.plan_short(&text, LISTING_LENGTH).answer,
            s.plan_weighted(&text, LISTING_LENGTH).answer,
        ] {
            let what = "a weight in its range is refused";
            s.expect(answer.number == 0, what, answer, &text, b"");
        }
    }
}

/// All calls refuse the net so, whatever the output.
fn refused(s: &mut Session, r: &mut Random, net: &[u8], number: u8, line: usize) {
    far::refused(s, r, net, number, line);
    let length = r.pick(&[0, 60, LISTING_LENGTH]);
    for answer in [
        s.plan_short(net, length).answer,
        s.plan_weighted(net, length).answer,
    ] {
        far::expect_refusal(s, answer, number, line, net, b"");
    }
}

/// The text with this instead of a comma and the weight of sink i, from 0.
fn ended(text: &[u8], i: usize, end: &str) -> Vec<u8> {
    let at = damage::numbers(text)[weight_of(i)].clone();
    damage::replaced(text, at.start - 1..at.end, end.as_bytes())
}

/// The place of its weight among the net's numbers.
fn weight_of(i: usize) -> usize {
    7 + 4 * i + 3
}

/// Lines without a weight from sink i on: the first of them is told. So is any
/// fault before it, and none behind it.
fn as_before(s: &mut Session, r: &mut Random, text: &[u8], i: usize) {
    let sinks = (damage::numbers(text).len() - 7) / 4;
    let from = |first: usize| {
        let lines = (first..sinks).rev();
        lines.fold(text.to_vec(), |text, k| ended(&text, k, ""))
    };
    refused(s, r, &from(i), 2, line_of(i));
    refused(s, r, &from(0), 2, line_of(0));
    if i > 0 {
        let early = ended(&from(i), i - 1, ",0");
        refused(s, r, &early, 3, line_of(i - 1));
    }
    if i + 1 < sinks {
        let late = ended(&from(i + 1), i, ",1001");
        refused(s, r, &late, 3, line_of(i));
    }
}

/// A pin too far off: 2 and 3 of its weight go before 13.
fn far_too(s: &mut Session, r: &mut Random, mut net: Net, i: usize) {
    net.sinks[i].at = pins::beyond(r, net.root);
    let text = net.text();
    refused(s, r, &text, 13, line_of(i));
    for (end, number) in [("", 2), (",01", 2), (",0", 3), (",1001", 3), (",-1", 3)] {
        refused(s, r, &ended(&text, i, end), number, line_of(i));
    }
}

/// A weight with so many digits that the text has just its length, and one more.
fn filled(s: &mut Session, r: &mut Random, text: &[u8], i: usize) {
    let end = damage::numbers(text)[weight_of(i)].end;
    for (length, number, line) in [(NET_LENGTH, 3, line_of(i)), (NET_LENGTH + 1, 1, 0)] {
        let digits = vec![b'7'; length - text.len()];
        let long = damage::replaced(text, end..end, &digits);
        refused(s, r, &long, number, line);
    }
}
