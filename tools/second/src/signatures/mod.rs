//! What the header and the Rust wrapper declare against the Rattle source: the
//! functions of the archive, the limits, the version and the refusals' plain
//! words. The linker would join them whatever they say. And where the Rattle
//! source takes a length's number.

mod functions;
mod lengths;
mod numbers;
#[cfg(test)]
mod tests;
mod wording;
mod words;

use functions::Function;
use lengths::Code;
use numbers::Numbers;
use std::collections::BTreeSet;
use std::fs;
use std::io::Result;
use std::path::Path;

const LIBRARY: &str = "crates/repeater_tree_c/src/lib.rt";
const HEADER: &str = "callers/c/repeater_tree.h";
const CALLS: &str = "callers/rust/src/calls.rs";
const WRAPPER: &str = "callers/rust/src/lib.rs";
const REFUSALS: &str = "callers/rust/src/refusal.rs";
const TOLD: &str = "crates/formats/src/refusal.rt";
const WORDS: &str = "crates/console/src/words.rt";
const MANIFEST: &str = "callers/rust/Cargo.toml";
const LIMITS: &str = "crates/*/src/limits.rt";

/// The prefix of every macro in the header.
const PREFIX: &str = "REPEATER_TREE_";
/// And of every function in it; the wrapper's have their names without it.
const FUNCTION_PREFIX: &str = "repeater_tree_";
/// Measured on the archive: no constant of the Rattle source has it.
const STACK: &str = "STACK";

/// The files' texts.
#[derive(Clone)]
pub struct Sources {
    library: String,
    header: String,
    calls: String,
    wrapper: String,
    manifest: String,
    refusals: String,
    told: String,
    words: String,
    /// One for each crate that has such a file.
    limits: Vec<String>,
    code: Code,
}

impl Sources {
    pub fn read(root: &Path) -> Result<Sources> {
        let text = |name: &str| fs::read_to_string(root.join(name));
        let mut limits = Vec::new();
        for entry in fs::read_dir(root.join("crates"))? {
            let file = entry?.path().join("src/limits.rt");
            if file.exists() {
                limits.push(fs::read_to_string(file)?);
            }
        }
        Ok(Sources {
            library: text(LIBRARY)?,
            header: text(HEADER)?,
            calls: text(CALLS)?,
            wrapper: text(WRAPPER)?,
            manifest: text(MANIFEST)?,
            refusals: text(REFUSALS)?,
            told: text(TOLD)?,
            words: text(WORDS)?,
            limits,
            code: code(root)?,
        })
    }
}

/// crates/*/src/*.rt
fn code(root: &Path) -> Result<Code> {
    let mut found = Code::new();
    for entry in fs::read_dir(root.join("crates"))? {
        let folder = entry?.path().join("src");
        for file in fs::read_dir(folder)? {
            let path = file?.path();
            if path.extension().is_some_and(|e| e == "rt") {
                let name = path.strip_prefix(root).unwrap_or(&path);
                let name = name.display().to_string();
                found.insert(name, fs::read_to_string(&path)?);
            }
        }
    }
    Ok(found)
}

#[derive(Default)]
pub struct Report {
    pub functions: usize,
    pub limits: usize,
    pub wordings: usize,
    pub version: String,
    /// Where a length's number is taken.
    pub places: usize,
    pub differences: Vec<String>,
}

pub fn compare(sources: &Sources) -> Report {
    let mut report = Report::default();
    compare_functions(sources, &mut report);
    compare_limits(sources, &mut report);
    compare_version(sources, &mut report);
    compare_wording(sources, &mut report);
    report.places = lengths::listed();
    report
        .differences
        .extend(lengths::differences(&sources.code));
    report
}

fn compare_functions(sources: &Sources, report: &mut Report) {
    let library = functions::of_rattle(&sources.library);
    let header = functions::of_header(&sources.header);
    let calls = functions::of_rust(&sources.calls);
    report.functions = library.len();
    if library.is_empty() {
        report.tell(format!("{LIBRARY}: no functions"));
    }
    let (lent, raw): (Vec<Function>, Vec<Function>) =
        header.into_iter().partition(Function::is_wrapper);
    for (file, declared) in [(HEADER, &raw), (CALLS, &calls)] {
        report.same_functions(&library, file, declared);
    }
    let lent: Vec<Function> = lent.into_iter().map(Function::without_suffix).collect();
    let wrappers = format!("the inline functions of {HEADER}");
    report.same_functions(&library, &wrappers, &lent);
    for function in &library {
        if !functions::is_renamed(&sources.header, &function.name) {
            let name = &function.name;
            report.tell(format!(
                "{HEADER}: {name} does not mean its inline function"
            ));
        }
        let name = function.name.trim_start_matches(FUNCTION_PREFIX);
        if !functions::is_offered(&sources.wrapper, name) {
            report.tell(format!("{WRAPPER}: no function {name}"));
        }
    }
}

fn compare_limits(sources: &Sources, report: &mut Report) {
    let mut limits = Numbers::new();
    for text in &sources.limits {
        for (name, value) in numbers::of_constants(text) {
            let first = *limits.entry(name.clone()).or_insert(value);
            if first != value {
                report.tell(format!("{LIMITS}: {name} is {first} and {value}"));
            }
        }
    }
    let mut header = numbers::of_macros(&sources.header, PREFIX);
    header.retain(|name, _| !name.starts_with("VERSION_"));
    let wrapper = numbers::of_constants(&sources.wrapper);
    report.limits = header.len();
    for name in wrapper.keys().filter(|name| !header.contains_key(*name)) {
        report.tell(format!("{HEADER}: no {PREFIX}{name}, {WRAPPER} has {name}"));
    }
    for (name, value) in &header {
        let stated = format!("{HEADER}: {PREFIX}{name} is {value}");
        report.same_number(&stated, *value, WRAPPER, name, wrapper.get(name));
        if name != STACK {
            let limit = format!("{name}_LIMIT");
            let found = limits.get(&limit).or_else(|| limits.get(name));
            report.same_number(&stated, *value, LIMITS, name, found);
        }
    }
}

fn compare_version(sources: &Sources, report: &mut Report) {
    let header = numbers::of_macros(&sources.header, PREFIX);
    let part = |name: &str| match header.get(&format!("VERSION_{name}")) {
        Some(number) => number.to_string(),
        None => "?".to_string(),
    };
    report.version = [part("MAJOR"), part("MINOR"), part("PATCH")].join(".");
    let package = numbers::version_of(&sources.manifest).unwrap_or_default();
    if package != report.version {
        let version = &report.version;
        report.tell(format!(
            "{HEADER}: version {version}, {MANIFEST} has {package}"
        ));
    }
}

fn compare_wording(sources: &Sources, report: &mut Report) {
    let programs = wording::of_rattle(&sources.words, &sources.told);
    report.wordings = programs.len();
    let header = wording::of_header(&sources.header);
    let wrapper = wording::of_rust(&sources.refusals);
    for (file, other) in [(HEADER, header), (REFUSALS, wrapper)] {
        let rows: BTreeSet<_> = programs.keys().chain(other.keys()).collect();
        for row in rows {
            let (due, found) = (programs.get(row), other.get(row));
            if due != found {
                report.tell(format!(
                    "{file}: refusal {} is {found:?}, {WORDS} has {due:?}",
                    row.0
                ));
            }
        }
    }
}

impl Report {
    fn tell(&mut self, difference: String) {
        self.differences.push(difference);
    }

    fn same_functions(&mut self, library: &[Function], file: &str, declared: &[Function]) {
        let named = |all: &[Function], name: &str| all.iter().find(|f| f.name == name).cloned();
        for function in declared {
            if named(library, &function.name).is_none() {
                let name = &function.name;
                self.tell(format!("{file}: {name} is not in {LIBRARY}"));
            }
        }
        for function in library {
            match named(declared, &function.name) {
                Some(other) => self.same_function(function, file, &other),
                None => self.tell(format!("{file}: {} is missing", function.name)),
            }
        }
    }

    fn same_function(&mut self, function: &Function, file: &str, other: &Function) {
        let (here, there) = (function.items(), other.items());
        for place in 0..here.len().max(there.len()) {
            let (due, found) = (here.get(place), there.get(place));
            if due != found {
                let words = |item: Option<&String>| item.cloned().unwrap_or("nothing".into());
                self.tell(format!(
                    "{file}: {} has `{}` where {LIBRARY} has `{}`",
                    function.name,
                    words(found),
                    words(due)
                ));
            }
        }
    }

    fn same_number(
        &mut self,
        stated: &str,
        value: u64,
        file: &str,
        name: &str,
        found: Option<&u64>,
    ) {
        match found {
            Some(other) if *other == value => {}
            Some(other) => self.tell(format!("{stated}, {file} has {other}")),
            None => self.tell(format!("{stated}, {file} has no {name}")),
        }
    }
}
