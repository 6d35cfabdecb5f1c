//! Stored nets with their listings: whoever plans such a net must give the
//! very bytes of its listing, and of those of its short tree and its third plan
//! where it has them.

mod compare;
mod set;
#[cfg(test)]
mod tests;

pub use set::{drawn, LEAST_NETS};
use set::{has_short, has_weighted, is_reachable};

use crate::planners::{Planner, LIBRARY, SHORT_LIBRARY, WEIGHTED_LIBRARY};
use crate::programs::Programs;
use repeater_tree::LISTING_LENGTH;
use second_reference::answer::Answer;
use std::collections::BTreeSet;
use std::fs;
use std::io::{Result, Write};
use std::path::{Path, PathBuf};

const NET: &str = "net";
const TREE: &str = "tree";
const SHORT: &str = "short";
const WEIGHTED: &str = "weighted";

/// Each kind of listing by its extension, its name, and whether it is due.
type Due = (&'static str, &'static str, fn(&str) -> bool);
const LISTINGS: [Due; 3] = [
    (TREE, "listing", is_reachable),
    (SHORT, "short tree", has_short),
    (WEIGHTED, "third plan", has_weighted),
];

/// What may be added to a net that is stored.
const ADDED: [&str; 2] = [SHORT, WEIGHTED];

#[derive(Default)]
pub struct Report {
    pub nets: usize,
    pub sinks: usize,
    /// Nets that the slow reference planned too.
    pub slow: usize,
    /// Nets beside another that they are a multiple of.
    pub images: usize,
    /// Nets that no tree has the need of.
    pub unreachable: usize,
    /// Short trees, and those that the slow reference made too.
    pub shorts: usize,
    pub slow_shorts: usize,
    /// Third plans, all by the slow reference too.
    pub weighted: usize,
    pub faults: Vec<String>,
}

/// A net's text and its listings, where they are due.
pub struct Stored {
    pub name: String,
    pub net: Vec<u8>,
    pub tree: Option<Vec<u8>>,
    pub short: Option<Vec<u8>>,
    pub weighted: Option<Vec<u8>>,
}

/// Compares every stored listing with what all planners and judges give. A
/// folder of fewer nets than `least` is at fault too.
pub fn check(folder: &Path, least: usize, programs: Option<&Programs>) -> Result<Report> {
    let mut report = Report::default();
    let mut nets = names(folder, NET)?;
    if nets.len() < least {
        let found = nets.len();
        let faults = &mut report.faults;
        faults.push(format!("{found} nets, at least {least} are due"));
    }
    for (extension, what, due) in LISTINGS {
        let listed = names(folder, extension)?;
        let faults = &mut report.faults;
        faults.extend(listed.difference(&nets).map(|n| format!("{n}: no net")));
        for name in listed.iter().filter(|name| !due(name)) {
            faults.push(format!("{name}: a {what} that is not due"));
        }
        nets.retain(|name| {
            let missing = due(name) && !listed.contains(name);
            if missing {
                faults.push(format!("{name}: no {what}"));
            }
            !missing
        });
    }
    for name in nets {
        let stored = Stored::read(folder, &name)?;
        stored.compare(programs, &mut report)?;
        stored.compare_original(folder, &mut report)?;
    }
    Ok(report)
}

/// Stores each net with the library's listings if all agree on them. Where a
/// file of that name exists, only a short tree and a third plan are added to a
/// net.
pub fn write(
    folder: &Path,
    nets: &[(String, Vec<u8>)],
    programs: Option<&Programs>,
) -> Result<Report> {
    let mut report = Report::default();
    for (name, net) in nets {
        let stored = Stored::planned(name, net);
        let exists = |extension: &str| path(folder, name, extension).exists();
        let mut new = stored.files();
        if exists(NET) {
            new.retain(|(extension, _)| ADDED.contains(extension) && !exists(extension));
        }
        let stray = !exists(NET) && LISTINGS.iter().any(|(extension, ..)| exists(extension));
        if stray || new.is_empty() {
            continue;
        }
        let faults = report.faults.len();
        stored.compare(programs, &mut report)?;
        if report.faults.len() == faults {
            for (extension, bytes) in new {
                write_new(&path(folder, name, extension), bytes)?;
            }
        }
    }
    Ok(report)
}

fn names(folder: &Path, extension: &str) -> Result<BTreeSet<String>> {
    let mut names = BTreeSet::new();
    for entry in fs::read_dir(folder)? {
        let name = entry?.file_name().to_string_lossy().into_owned();
        if let Some((stem, end)) = name.rsplit_once('.') {
            if end == extension {
                names.insert(stem.to_string());
            }
        }
    }
    Ok(names)
}

fn path(folder: &Path, name: &str, extension: &str) -> PathBuf {
    folder.join(format!("{name}.{extension}"))
}

fn write_new(file: &Path, bytes: &[u8]) -> Result<()> {
    let mut new = fs::OpenOptions::new();
    new.write(true).create_new(true);
    new.open(file)?.write_all(bytes)
}

fn planned(plan: fn(&[u8], &mut [u8]) -> Answer, net: &[u8]) -> (Answer, Vec<u8>) {
    let mut out = vec![0; LISTING_LENGTH];
    let answer = plan(net, &mut out);
    out.truncate(answer.last as usize);
    (answer, out)
}

impl Stored {
    fn read(folder: &Path, name: &str) -> Result<Stored> {
        let read = |extension| fs::read(path(folder, name, extension));
        let due = |due: bool, extension| due.then(|| read(extension)).transpose();
        Ok(Stored {
            name: name.to_string(),
            net: read(NET)?,
            tree: due(is_reachable(name), TREE)?,
            short: due(has_short(name), SHORT)?,
            weighted: due(has_weighted(name), WEIGHTED)?,
        })
    }

    /// By the library.
    fn planned(name: &str, net: &[u8]) -> Stored {
        let listing = |due: bool, by: Planner| due.then(|| planned(by.1, net).1);
        Stored {
            name: name.to_string(),
            net: net.to_vec(),
            tree: listing(is_reachable(name), LIBRARY),
            short: listing(has_short(name), SHORT_LIBRARY),
            weighted: listing(has_weighted(name), WEIGHTED_LIBRARY),
        }
    }

    /// By extension, the net first.
    fn files(&self) -> Vec<(&'static str, &[u8])> {
        let mut files = vec![(NET, &self.net[..])];
        let listings = [
            (TREE, &self.tree),
            (SHORT, &self.short),
            (WEIGHTED, &self.weighted),
        ];
        for (extension, listing) in listings {
            files.extend(listing.as_deref().map(|bytes| (extension, bytes)));
        }
        files
    }
}
