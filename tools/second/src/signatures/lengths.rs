//! The places where a length's number is taken. Only the product with a wire
//! factor may make a time of a length, and this number is the one way round it,
//! so every place is listed.

use super::words::words;
use std::collections::BTreeMap;

/// Every crate's sources, by file.
pub type Code = BTreeMap<String, String>;

/// The function that gives the number, and the file that defines it.
const NUMBER: &str = "nanometres";
const LENGTH: &str = "crates/quantities/src/length.rt";

/// The file of the product.
const PRODUCT: &str = "crates/quantities/src/wire_factor.rt";

/// Every file that takes the number, and how often: the product, the listing's
/// text with its length, the figures that go out, the array of what sinks add
/// to the short tree, which is read back as lengths, the router's score.
const PLACES: [(&str, usize); 9] = [
    (PRODUCT, 1),
    ("crates/writing/src/write_listing.rt", 1),
    ("crates/writing/src/listing_length.rt", 1),
    ("crates/repeater_tree/src/lib.rt", 2),
    ("crates/console/src/lines.rt", 1),
    ("crates/short_tree/src/choose.rt", 1),
    ("crates/short_tree/src/grow.rt", 1),
    ("crates/short_tree/src/renew.rt", 1),
    ("crates/scoring/src/weights.rt", 1),
];

/// How many places are listed.
pub fn listed() -> usize {
    PLACES.iter().map(|(_, places)| places).sum()
}

/// Whatever differs from the list, and every time that is made of a length's
/// number outside the product.
pub fn differences(code: &Code) -> Vec<String> {
    let mut told: Vec<String> = PLACES
        .iter()
        .filter(|(file, _)| !code.contains_key(*file))
        .map(|(file, _)| format!("{file}: is listed and not there"))
        .collect();
    for (file, text) in code.iter().filter(|(file, _)| *file != LENGTH) {
        let words = words(text);
        let found = words.iter().filter(|w| *w == NUMBER).count();
        let due = due(file);
        if found != due {
            told.push(format!(
                "{file}: a length's number is taken {found} times, {due} listed"
            ));
        }
        if makes_time(file, found, &words) {
            told.push(format!("{file}: a time is made of a length's number"));
        }
    }
    told
}

fn due(file: &str) -> usize {
    let listed = PLACES.iter().find(|(name, _)| *name == file);
    listed.map_or(0, |(_, places)| *places)
}

/// The product makes its time of the product; no other file that takes the
/// number makes a time at all.
fn makes_time(file: &str, found: usize, words: &[String]) -> bool {
    let mut times = words
        .windows(5)
        .enumerate()
        .filter(|(_, w)| **w == ["Time", ":", ":", "of", "("])
        .map(|(at, _)| given(&words[at + 5..]));
    match file {
        PRODUCT => times.any(|given| given.iter().any(|w| w == NUMBER)),
        _ => found > 0 && times.next().is_some(),
    }
}

/// The words up to the parenthesis that closes.
fn given(words: &[String]) -> &[String] {
    let mut open = 1;
    for (at, word) in words.iter().enumerate() {
        match word.as_str() {
            "(" => open += 1,
            ")" => open -= 1,
            _ => {}
        }
        if open == 0 {
            return &words[..at];
        }
    }
    words
}
