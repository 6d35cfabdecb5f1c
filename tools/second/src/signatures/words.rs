//! A source as a list of words, comments left out.

/// Names, numbers and quoted words whole, every other sign by itself.
pub fn words(source: &str) -> Vec<String> {
    let source = without_comments(source);
    let mut words = Vec::new();
    let mut rest = source.trim_start();
    while let Some(first) = rest.chars().next() {
        let length = match first {
            '"' => rest[1..].find('"').map_or(rest.len(), |end| end + 2),
            _ if is_name(first) => rest.find(|c| !is_name(c)).unwrap_or(rest.len()),
            _ => first.len_utf8(),
        };
        words.push(rest[..length].to_string());
        rest = rest[length..].trim_start();
    }
    words
}

fn is_name(c: char) -> bool {
    c.is_ascii_alphanumeric() || c == '_'
}

fn without_comments(source: &str) -> String {
    let mut kept = String::new();
    let mut rest = source;
    loop {
        let line = rest.find("//").map(|at| (at, "\n"));
        let block = rest.find("/*").map(|at| (at, "*/"));
        let Some((at, end)) = [line, block].into_iter().flatten().min() else {
            return kept + rest;
        };
        kept.push_str(&rest[..at]);
        kept.push('\n');
        let after = &rest[at + 2..];
        rest = after
            .find(end)
            .map_or("", |found| &after[found + end.len()..]);
    }
}
