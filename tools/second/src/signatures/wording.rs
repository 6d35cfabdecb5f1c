//! The refusals' plain words as a source has them.

use super::words::words;
use std::collections::BTreeMap;

/// By the refusal's number, and whether no line is meant: only 9 has other
/// words then, those for the root.
pub type Wording = BTreeMap<(u64, bool), String>;

/// The Rust wrapper: `(NUMBER, LINE) => "WORDS"`.
pub fn of_rust(source: &str) -> Wording {
    let words = words(source);
    let rows = words.windows(8).filter_map(|w| match w {
        [open, number, comma, line, close, equals, arrow, text]
            if [open, comma, close, equals, arrow] == ["(", ",", ")", "=", ">"] =>
        {
            Some(((number.parse().ok()?, line == "0"), quoted(text)?))
        }
        _ => None,
    });
    rows.collect()
}

/// The C header: `case NAME: return "WORDS"`, NAME being one of its numbers;
/// `line == 0 ? "WORDS" : "WORDS"` for the refusal with two rows.
pub fn of_header(source: &str) -> Wording {
    let words = words(source);
    let numbers: BTreeMap<&str, u64> = words
        .windows(3)
        .filter(|w| w[1] == "=")
        .filter_map(|w| Some((w[0].as_str(), w[2].parse().ok()?)))
        .collect();
    let mut found = Wording::new();
    for case in words.split(|w| w == "case").skip(1) {
        let end = case.iter().position(|w| w == ";").unwrap_or(case.len());
        if let Some(number) = numbers.get(case[0].as_str()) {
            found.extend(rows(*number, &case[..end]));
        }
    }
    found
}

/// The programs: `Refusal::NAME { .. } => "WORDS"`, once with `line: 0` for the
/// refusal with two rows; `numbers` is the source with `Refusal::NAME` and the
/// number that is told of it.
pub fn of_rattle(source: &str, numbers: &str) -> Wording {
    let told: BTreeMap<String, u64> = variants(&words(numbers))
        .filter_map(|(name, rest)| {
            let at = rest.iter().position(|w| w == "number")?;
            Some((name.to_string(), rest.get(at + 2)?.parse().ok()?))
        })
        .collect();
    let words = words(source);
    let rows = variants(&words).filter_map(|(name, rest)| {
        let root = rest.starts_with(&["{", "line", ":", "0"].map(String::from));
        Some(((*told.get(name)?, root), rest.iter().find_map(|w| quoted(w))?))
    });
    rows.collect()
}

/// The quoted words in the order of their rows: the first of two is the root's.
fn rows(number: u64, words: &[String]) -> impl Iterator<Item = ((u64, bool), String)> + '_ {
    let both = words.iter().filter_map(|w| quoted(w)).count() == 2;
    let texts = words.iter().filter_map(|w| quoted(w)).enumerate();
    texts.map(move |(place, text)| ((number, both && place == 0), text))
}

/// Each `Refusal::NAME`, with what stands before the next.
fn variants(words: &[String]) -> impl Iterator<Item = (&str, &[String])> {
    let parts = words.split(|w| w == "Refusal").skip(1);
    parts.filter_map(|part| match part {
        [a, b, name, rest @ ..] if a == ":" && b == ":" => Some((name.as_str(), rest)),
        _ => None,
    })
}

fn quoted(word: &str) -> Option<String> {
    let inner = word.strip_prefix('"')?.strip_suffix('"')?;
    Some(inner.to_string())
}
