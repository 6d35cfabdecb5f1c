//! Named whole numbers of a source.

use super::words::words;
use std::collections::BTreeMap;

pub type Numbers = BTreeMap<String, u64>;

/// `pub const NAME: TYPE = NUMBER;`, in Rattle or Rust.
pub fn of_constants(source: &str) -> Numbers {
    let mut found = Numbers::new();
    for stated in words(source).split(|w| w == ";") {
        let Some(start) = stated.iter().position(|w| w == "const") else {
            continue;
        };
        if let [_, name, colon, _, equals, value] = &stated[start..] {
            if let (":", "=", Some(value)) = (colon.as_str(), equals.as_str(), number(value)) {
                found.insert(name.clone(), value);
            }
        }
    }
    found
}

/// `#define PREFIX_NAME NUMBER`, by what follows the prefix.
pub fn of_macros(header: &str, prefix: &str) -> Numbers {
    let mut found = Numbers::new();
    for line in header.lines() {
        let words: Vec<&str> = line.split_whitespace().collect();
        if let ["#define", name, value] = words[..] {
            if let (Some(name), Some(value)) = (name.strip_prefix(prefix), number(value)) {
                found.insert(name.to_string(), value);
            }
        }
    }
    found
}

fn number(word: &str) -> Option<u64> {
    word.replace('_', "").parse().ok()
}

/// A package's version.
pub fn version_of(manifest: &str) -> Option<String> {
    let stated = |line: &str| line.strip_prefix("version = ").map(str::to_string);
    Some(manifest.lines().find_map(stated)?.trim_matches('"').into())
}
