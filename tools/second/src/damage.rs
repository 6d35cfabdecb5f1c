//! Ways to spoil a text.

use crate::random::Random;
use second_reference::net::PIN_LIMIT;
use std::ops::Range;

/// Where the numbers of a text stand.
pub fn numbers(text: &[u8]) -> Vec<Range<usize>> {
    let mut found = Vec::new();
    let mut start = None;
    for (i, &b) in text.iter().enumerate() {
        if let (Some(from), b',' | b'\n') = (start, b) {
            found.push(from..i);
            start = None;
        }
        if b == b',' || b == b'=' {
            start = Some(i + 1);
        }
    }
    found
}

pub fn replaced(text: &[u8], at: Range<usize>, by: &[u8]) -> Vec<u8> {
    [&text[..at.start], by, &text[at.end..]].concat()
}

/// Words that are no number, or one that few fields take; blanks in between.
const ODD_WORDS: &[u8] = b"- + 0 00 -0 -00 01 -01 +1 -1 --1 1- 1.0 1e3 0x1 1_0 1,1 x / : 1: 1/ \
\xb2 \xef\xbc\x91 1\0 1\r \t1";

/// Spellings that are wrong, or right and out of every range.
pub fn odd_spellings(value: &[u8]) -> Vec<Vec<u8>> {
    let mut all: Vec<Vec<u8>> = ODD_WORDS
        .split(|&b| b == b' ')
        .map(|s| s.to_vec())
        .collect();
    all.extend([&b""[..], b" 1", b"1 "].map(|s| s.to_vec()));
    all.push([b"0", value].concat());
    all.push([b"+", value].concat());
    all.push([b"-", value].concat());
    all.push([value, b"0"].concat());
    for digits in [10, 16, 19, 20, 25, 39, 3000, 15_000] {
        all.push(vec![b'9'; digits]);
        all.push([&b"-1"[..], &vec![b'0'; digits]].concat());
    }
    all.push(vec![b'0'; 3000]);
    all
}

/// Numbers equal to this one modulo the sizes of machine words.
pub fn congruent(value: &[u8]) -> Vec<Vec<u8>> {
    let value = value_of(value);
    [8, 16, 31, 32, 53, 63, 64]
        .iter()
        .flat_map(|&bits| [value + (1i128 << bits), value - (1i128 << bits)])
        .map(|v| v.to_string().into_bytes())
        .collect()
}

fn value_of(number: &[u8]) -> i128 {
    std::str::from_utf8(number)
        .ok()
        .and_then(|v| v.parse().ok())
        .unwrap_or(1)
}

/// Numbers about the pin limit from this one: a pin or the root that moves so
/// may stay near enough or not.
pub fn across(value: &[u8]) -> Vec<Vec<u8>> {
    let value = value_of(value);
    let limit = PIN_LIMIT as i128;
    [limit - 1, limit, limit + 1]
        .iter()
        .flat_map(|by| [value + by, value - by])
        .map(|v| v.to_string().into_bytes())
        .collect()
}

/// Each end of each range, and its neighbours, whatever the field.
pub fn limits() -> Vec<Vec<u8>> {
    let ends: [i128; 15] = [
        0,
        1,
        512,
        1_000,
        10_000,
        100_000_000,
        -100_000_000,
        1_000_000_000,
        1_000_000_000_000,
        1_000_000_000_000_000,
        -1_000_000_000_000_000,
        2_000_000_000_000_000,
        -2_000_000_000_000_000,
        4_000_000_000_000_000,
        -4_000_000_000_000_000,
    ];
    ends.iter()
        .flat_map(|e| [e - 1, *e, e + 1])
        .map(|v| v.to_string().into_bytes())
        .collect()
}

const ODD_BYTES: &[u8] = b"\0\t\n\r +,-./0123456789:=aelnorstw\x7f\x80\xff";

/// One random damage.
pub fn any(r: &mut Random, text: &[u8]) -> Vec<u8> {
    if text.is_empty() {
        return vec![r.pick(ODD_BYTES)];
    }
    let at = r.index(text.len());
    match r.index(10) {
        0 => replaced(text, at..at + 1, &[text[at] ^ (1 << r.index(8))]),
        1 => replaced(text, at..at + 1, &[r.pick(ODD_BYTES)]),
        2 => replaced(text, at..at + 1, b""),
        3 => replaced(text, at..at, &[r.pick(ODD_BYTES)]),
        4 => text[..at].to_vec(),
        5 => [text, &text[at..]].concat(),
        6 | 7 => lines_damaged(r, text),
        _ => number_damaged(r, text),
    }
}

fn number_damaged(r: &mut Random, text: &[u8]) -> Vec<u8> {
    let all = numbers(text);
    if all.is_empty() {
        return text.to_vec();
    }
    let at = all[r.index(all.len())].clone();
    let value = &text[at.clone()];
    let choices = match r.index(5) {
        0 => odd_spellings(value),
        1 => congruent(value),
        2 => limits(),
        3 => across(value),
        _ => return replaced(text, at, r.between(-3, 12).to_string().as_bytes()),
    };
    replaced(text, at, &choices[r.index(choices.len())])
}

fn lines_damaged(r: &mut Random, text: &[u8]) -> Vec<u8> {
    let mut lines: Vec<Vec<u8>> = text
        .split_inclusive(|&b| b == b'\n')
        .map(|l| l.to_vec())
        .collect();
    let (i, j) = (r.index(lines.len()), r.index(lines.len()));
    match r.index(7) {
        0 => lines.swap(i, j),
        1 => {
            let line = lines[i].clone();
            lines.insert(j, line);
        }
        2 => drop(lines.remove(i)),
        3 => lines[i] = [&lines[i][..lines[i].len() - 1], b"\r\n"].concat(),
        4 => lines[i].insert(0, b' '),
        5 => lines[i].make_ascii_uppercase(),
        _ => lines.insert(i, b"\n".to_vec()),
    }
    lines.concat()
}

/// Damages of the whole text that are due for every text; it is empty where a
/// good net was refused.
pub fn whole(text: &[u8]) -> Vec<Vec<u8>> {
    let crlf = String::from_utf8_lossy(text)
        .replace('\n', "\r\n")
        .into_bytes();
    let mut all = vec![
        crlf,
        text[..text.len().saturating_sub(1)].to_vec(),
        Vec::new(),
        b"\n".to_vec(),
    ];
    for tail in [
        &b"\n"[..],
        b" ",
        b"\0",
        b"sink=0,0,0,1\n",
        b"x",
        b"leaf=1,0\n",
        b"\n\n",
    ] {
        all.push([text, tail].concat());
    }
    for head in [&b"\n"[..], b" ", b"\xef\xbb\xbf", b"#\n"] {
        all.push([head, text].concat());
    }
    all.push([text, text].concat());
    all
}

/// Texts of exactly this length: filled up behind the last line, and by the
/// digits of one number.
pub fn of_length(r: &mut Random, text: &[u8], length: usize) -> Vec<Vec<u8>> {
    let missing = length - text.len();
    let behind = [text, &vec![r.pick(b"\n 0x"); missing]].concat();
    let mut ends: Vec<usize> = numbers(text).iter().map(|at| at.end).collect();
    if ends.is_empty() {
        ends.push(0);
    }
    let end = r.pick(&ends);
    let digits = replaced(text, end..end, &vec![b'7'; missing]);
    let unended = [text, &vec![b'7'; missing]].concat();
    vec![behind, digits, unended]
}
