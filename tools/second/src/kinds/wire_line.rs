//! Line 3 of the net, `wire=h,v`, in every spelling. What must be told follows
//! from how each was made.

use super::far::refused;
use super::planned::plan_and_judge;
use crate::damage;
use crate::nets;
use crate::random::Random;
use crate::session::Session;
use repeater_tree::NET_LENGTH;
use second_reference::net::{Factors, Net, WIRE};

/// Numbers that are misspelt, wherever they stand.
const MISSPELT: [&str; 15] = [
    "", "-", "-0", "+1", "00", "01", "1.0", "1e3", "x", " 1", "1 ", "1\r", "1\0", "--1", "0x1",
];

/// Well spelt, and out of the factors' range.
fn out_of_range() -> Vec<String> {
    let few = [
        "0",
        "-1",
        "10001",
        "-10000",
        "65537",
        "4294967297",
        "18446744073709551617",
    ];
    let many = [20, 39, 3000].map(|digits| "9".repeat(digits));
    few.map(str::to_string).into_iter().chain(many).collect()
}

/// On both sides of each limit and in every spelling.
pub fn all(s: &mut Session, r: &mut Random) {
    let n = r.between(1, 3) as usize;
    let net = nets::any(r, n);
    within(s, &net);
    let text = net.text();
    for spelt in misspelt_lines(r, net.wire) {
        refused(s, r, &with_line_3(&text, &spelt), 2, 3);
    }
    for spelt in ranging_lines(r, net.wire) {
        refused(s, r, &with_line_3(&text, &spelt), 3, 3);
    }
    without_end(s, r, &text);
    filled(s, r, &text);
}

/// Every two of the ends and their neighbours.
fn within(s: &mut Session, net: &Net) {
    let ends = [WIRE.0, WIRE.0 + 1, WIRE.1 - 1, WIRE.1];
    let mut net = net.clone();
    for horizontal in ends {
        for vertical in ends {
            net.wire = Factors::new(horizontal, vertical);
            plan_and_judge(s, &net);
        }
    }
}

/// One number, three, none, other signs between them, and each side misspelt
/// beside a number in range or not.
fn misspelt_lines(r: &mut Random, wire: Factors) -> Vec<String> {
    let (h, v) = (wire.horizontal, wire.vertical);
    let mut all: Vec<String> = ["", ",", "0", "10001", "-1", "0,0,0", "0,x", "x,0"]
        .map(|numbers| format!("wire={numbers}"))
        .to_vec();
    for between in [";", " ", ", ", " ,", ",,", "\t", "\n"] {
        all.push(format!("wire={h}{between}{v}"));
    }
    for (before, after) in [("", ","), (",", ""), ("", ",x"), ("", ",1"), (" ", "")] {
        all.push(format!("wire={before}{h},{v}{after}"));
    }
    all.push(format!("wire={h}"));
    all.push(format!("wire={v},"));
    all.push(format!("wire,{h},{v}"));
    all.push(format!("Wire={h},{v}"));
    let beside = [h.to_string(), r.pick(&["0", "10001", "-1"]).to_string()];
    for word in MISSPELT {
        for beside in &beside {
            all.push(format!("wire={word},{beside}"));
            all.push(format!("wire={beside},{word}"));
        }
    }
    all
}

fn ranging_lines(r: &mut Random, wire: Factors) -> Vec<String> {
    let range = out_of_range();
    let mut all = Vec::new();
    for number in &range {
        let both = &range[r.index(range.len())];
        all.push(format!("wire={number},{}", wire.vertical));
        all.push(format!("wire={},{number}", wire.horizontal));
        all.push(format!("wire={number},{both}"));
    }
    all
}

fn with_line_3(text: &[u8], line: &str) -> Vec<u8> {
    let mut lines: Vec<&[u8]> = text.split_inclusive(|&b| b == b'\n').collect();
    let line = format!("{line}\n");
    lines[2] = line.as_bytes();
    lines.concat()
}

/// Line 3 without its end byte, as the last and with more behind it.
fn without_end(s: &mut Session, r: &mut Random, text: &[u8]) {
    let ends: Vec<usize> = (0..text.len()).filter(|&i| text[i] == b'\n').collect();
    let end = ends[2];
    refused(s, r, &text[..end], 2, 3);
    refused(s, r, &text[..=end], 2, 4);
    refused(s, r, &[&text[..end], &text[end + 1..]].concat(), 2, 3);
}

/// A factor with so many digits that the text has just its length, and one more.
fn filled(s: &mut Session, r: &mut Random, text: &[u8]) {
    let (left, right) = (damage::numbers(text)[3].end, damage::numbers(text)[4].end);
    for (length, number, line) in [(NET_LENGTH, 3, 3), (NET_LENGTH + 1, 1, 0)] {
        let digits = vec![b'7'; length - text.len()];
        for end in [left, right] {
            let long = damage::replaced(text, end..end, &digits);
            refused(s, r, &long, number, line);
        }
    }
}
