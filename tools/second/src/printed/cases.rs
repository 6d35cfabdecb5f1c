//! Texts with what must be printed for them, from the order's marked nets and
//! lines and its table of refusals.

use super::{run, Said};
use crate::programs::{Programs, PLAN, PLAN_SHORT, PLAN_WEIGHTED};
use repeater_tree::{LISTING_LENGTH, NET_LENGTH};
use std::fs;
use std::io::{Result, Write};
use std::process::Stdio;

/// The order's net A, and the listing of its plan.
pub const A: &str =
    "root=0,0\nbranch=20\nwire=2,2\nneed=0\nsinks=3\nsink=10,0,100,1\nsink=4,6,60,1\nsink=10,10,70,1\n";
pub const LISTING: &str =
    "slack=0\nwire=32\nsinks=3\nleaf=1,5\nleaf=2,5\nleaf=3,4\nnode=4,0,4,0\nnode=5,4,4,0\n";

/// The listing of A's short tree.
const SHORT: &str =
    "slack=-10\nwire=26\nsinks=3\nleaf=1,5\nleaf=2,4\nleaf=3,5\nnode=4,0,4,0\nnode=5,4,10,0\n";

/// The listing of A's third plan.
const WEIGHTED: &str =
    "slack=0\nwire=32\nsinks=3\nleaf=1,4\nleaf=2,4\nleaf=3,5\nnode=4,5,4,0\nnode=5,0,4,0\n";

/// A program that plans.
pub struct Planner {
    pub program: &'static str,
    /// What it prints for A.
    pub listing: &'static str,
    /// And for two metals.
    two_metals: &'static str,
    /// The extension of its stored listings.
    pub stored: &'static str,
}

pub const PLANNERS: [Planner; 3] = [
    Planner {
        program: PLAN,
        listing: LISTING,
        two_metals: TWO_METALS_LISTING,
        stored: "tree",
    },
    Planner {
        program: PLAN_SHORT,
        listing: SHORT,
        two_metals: TWO_METALS_LISTING,
        stored: "short",
    },
    Planner {
        program: PLAN_WEIGHTED,
        listing: WEIGHTED,
        two_metals: TWO_METALS_WEIGHTED,
        stored: "weighted",
    },
];

/// A's pins, later due, where a nanometre upward costs three times as much. The
/// first two plans are the same; by the weights the third joins the same pins,
/// and the branch points have their numbers in order of joining.
const TWO_METALS: &str =
    "root=0,0\nbranch=20\nwire=2,6\nneed=0\nsinks=3\nsink=10,0,100,1\nsink=4,6,110,3\nsink=10,10,150,2\n";
const TWO_METALS_LISTING: &str =
    "slack=30\nwire=26\nsinks=3\nleaf=1,5\nleaf=2,4\nleaf=3,5\nnode=4,0,4,0\nnode=5,4,10,0\n";

const TWO_METALS_WEIGHTED: &str =
    "slack=30\nwire=26\nsinks=3\nleaf=1,4\nleaf=2,5\nleaf=3,4\nnode=4,5,10,0\nnode=5,0,4,0\n";

/// A file that a program finds: none, a folder, or a text.
enum Found {
    Nothing,
    Folder,
    Text(String),
}

enum Given {
    /// A program and the net on its standard input.
    Plan(&'static str, String),
    /// net.txt and tree.txt.
    Judge(Found, Found),
}

pub struct Case {
    pub name: String,
    given: Given,
    pub expected: Said,
}

impl Case {
    pub fn run(&self, programs: &Programs) -> Result<Said> {
        match &self.given {
            Given::Plan(program, net) => {
                let mut child = programs.command(program).stdin(Stdio::piped()).spawn()?;
                // Over the limit a program reads no further: a broken pipe is no fault.
                let _ = child.stdin.take().expect("piped").write_all(net.as_bytes());
                run::finish(child)
            }
            Given::Judge(net, listing) => {
                put(programs, "net.txt", net)?;
                put(programs, "tree.txt", listing)?;
                run::finish(programs.command("judge").spawn()?)
            }
        }
    }
}

/// In the folder where the programs run.
fn put(programs: &Programs, name: &str, found: &Found) -> Result<()> {
    let file = programs.work().join(name);
    // Whichever it was, if any.
    let _ = fs::remove_file(&file);
    let _ = fs::remove_dir(&file);
    match found {
        Found::Nothing => Ok(()),
        Found::Folder => fs::create_dir(file),
        Found::Text(text) => fs::write(file, text),
    }
}

pub fn all() -> Vec<Case> {
    let mut all: Vec<Case> = PLANNERS.iter().flat_map(plans).collect();
    all.extend(needs());
    all.extend(net_files());
    all.extend(listings());
    all
}

fn plan(program: &'static str, name: &str, net: &str, out: &str, err: &str) -> Case {
    Case {
        name: format!("{program} {name}"),
        given: Given::Plan(program, net.into()),
        expected: Said::of(out, err),
    }
}

/// A with one line for another.
fn with(old: &str, new: &str) -> String {
    assert!(A.contains(old));
    A.replacen(old, new, 1)
}

/// The first refuses a need that no tree reaches, the others do not look at it.
fn needs() -> [Case; 3] {
    let (name, net) = ("A with need=1", with("need=0", "need=1"));
    let told = "standard input:4: no legal tree has the needed slack\n";
    [
        plan(PLAN, name, &net, "refused=5,1,4\n", told),
        plan(PLAN_SHORT, name, &net, SHORT, ""),
        plan(PLAN_WEIGHTED, name, &net, WEIGHTED, ""),
    ]
}

/// What all have in common: listings, and how the net is refused.
fn plans(planner: &Planner) -> Vec<Case> {
    let misspelt = "the line due here is missing, lacks its newline, or is misspelt";
    let listed =
        |name: &str, net: &str, listing: &str| plan(planner.program, name, net, listing, "");
    let refused = |name: &str, net: &str, refusal: &str, words: &str| {
        let out = format!("refused={refusal}\n");
        let err = format!("standard input:{words}\n");
        plan(planner.program, name, net, &out, &err)
    };
    vec![
        listed("A", A, planner.listing),
        listed("two metals", TWO_METALS, planner.two_metals),
        refused("nothing", "", "2,1,1", &format!("1: {misspelt}")),
        refused(
            "branch=0",
            &with("branch=20", "branch=0"),
            "3,1,2",
            "2: a number is out of range",
        ),
        refused(
            "wire=2",
            &with("wire=2,2", "wire=2"),
            "2,1,3",
            &format!("3: {misspelt}"),
        ),
        refused(
            "wire=2,0",
            &with("wire=2,2", "wire=2,0"),
            "3,1,3",
            "3: a number is out of range",
        ),
        refused(
            "a far pin",
            &with("sink=4,6,60", "sink=40000000,1,60"),
            "13,1,7",
            "7: the sink is too far from the root",
        ),
        refused(
            "a sink without its weight",
            &with("sink=4,6,60,1", "sink=4,6,60"),
            "2,1,7",
            &format!("7: {misspelt}"),
        ),
        refused(
            "a weight of 1001",
            &with("sink=4,6,60,1", "sink=4,6,60,1001"),
            "3,1,7",
            "7: a number is out of range",
        ),
        refused(
            "as many bytes as a net may have",
            &padded(A, NET_LENGTH),
            "4,1,9",
            "9: bytes follow the last line",
        ),
        refused(
            "one byte more",
            &padded(A, NET_LENGTH + 1),
            "1,1,0",
            " the text is over its length",
        ),
        refused(
            "many bytes more",
            &padded(A, 4 * NET_LENGTH),
            "1,1,0",
            " the text is over its length",
        ),
    ]
}

/// The text with bytes after it, up to a length.
fn padded(text: &str, length: usize) -> String {
    format!("{text}{}", "x".repeat(length - text.len()))
}

fn judge(name: &str, net: Found, listing: Found, out: &str, err: &str) -> Case {
    Case {
        name: name.to_string(),
        given: Given::Judge(net, listing),
        expected: Said::of(out, err),
    }
}

fn text(text: &str) -> Found {
    Found::Text(text.into())
}

/// What is wrong with the net or its file comes before the listing.
fn net_files() -> Vec<Case> {
    let no_file = "No such file or directory\n";
    let (no_net, no_tree) = (
        format!("net.txt: {no_file}"),
        format!("tree.txt: {no_file}"),
    );
    let folder = "net.txt: Is a directory\n";
    let empty = "net.txt:1: the line due here is missing, lacks its newline, or is misspelt\n";
    let long = "net.txt: the text is over its length\n";
    let over = Found::Text(padded(A, NET_LENGTH + 1));
    vec![
        judge(
            "judge without net.txt",
            Found::Nothing,
            text(LISTING),
            "",
            &no_net,
        ),
        judge(
            "judge without tree.txt",
            text(A),
            Found::Nothing,
            "",
            &no_tree,
        ),
        judge("judge a folder", Found::Folder, text(LISTING), "", folder),
        judge(
            "judge over an empty net",
            text(""),
            text("no listing"),
            "refused=2,1,1\n",
            empty,
        ),
        judge(
            "judge over a long net",
            over,
            text("no listing"),
            "refused=1,1,0\n",
            long,
        ),
        judge(
            "judge two metals",
            text(TWO_METALS),
            text(TWO_METALS_LISTING),
            "slack=30\nwire=26\nbest=30\n",
            "",
        ),
        judge(
            "judge over wire=2",
            Found::Text(with("wire=2,2", "wire=2")),
            text(LISTING),
            "refused=2,1,3\n",
            "net.txt:3: the line due here is missing, lacks its newline, or is misspelt\n",
        ),
        judge(
            "judge over a weight of 0",
            Found::Text(with("sink=10,10,70,1", "sink=10,10,70,0")),
            text(LISTING),
            "refused=3,1,8\n",
            "net.txt:8: a number is out of range\n",
        ),
    ]
}

/// A's listing, and listings of other figures or parents over A.
fn listings() -> Vec<Case> {
    let rows: [(&str, String, &str, &str); 13] = [
        (
            "judge A's listing",
            LISTING.into(),
            "slack=0\nwire=32\nbest=0\n",
            "",
        ),
        (
            "judge A's short tree",
            SHORT.into(),
            "slack=-10\nwire=26\nbest=0\n",
            "",
        ),
        (
            "judge A's third plan",
            WEIGHTED.into(),
            "slack=0\nwire=32\nbest=0\n",
            "",
        ),
        (
            "judge slack=1",
            stating(1, 32),
            "11,2,1",
            "1: the stated slack is not the tree's worst slack",
        ),
        (
            "judge wire=31",
            stating(0, 31),
            "12,2,2",
            "2: the stated wire is not the tree's wire",
        ),
        (
            "judge a ring",
            joined([0, 4, 5, 5, 4]),
            "10,2,5",
            "5: this vertex is not reached from the root",
        ),
        (
            "judge three children",
            joined([4, 4, 4, 0, 4]),
            "9,2,7",
            "7: this branch point has not exactly two children",
        ),
        (
            "judge two under the root",
            joined([4, 4, 5, 0, 0]),
            "9,2,0",
            " the root has not exactly one child",
        ),
        (
            "judge sinks=4",
            LISTING.replacen("sinks=3", "sinks=4", 1),
            "7,2,3",
            "3: the number of sinks is not the net's",
        ),
        (
            "judge a sink's child",
            joined([2, 5, 4, 0, 4]),
            "8,2,4",
            "4: the parent is a sink",
        ),
        (
            "judge bytes after",
            format!("{LISTING}\n"),
            "4,2,9",
            "9: bytes follow the last line",
        ),
        (
            "judge no last newline",
            LISTING.trim_end().into(),
            "2,2,8",
            "8: the line due here is missing, lacks its newline, or is misspelt",
        ),
        (
            "judge a long listing",
            padded(LISTING, LISTING_LENGTH + 1),
            "1,2,0",
            " the text is over its length",
        ),
    ];
    let case = |(name, listing, out, err): (&str, String, &str, &str)| match err {
        "" => judge(name, text(A), Found::Text(listing), out, ""),
        _ => judge(
            name,
            text(A),
            Found::Text(listing),
            &format!("refused={out}\n"),
            &format!("tree.txt:{err}\n"),
        ),
    };
    rows.into_iter().map(case).collect()
}

fn stating(slack: i64, wire: u64) -> String {
    LISTING.replacen(
        "slack=0\nwire=32",
        &format!("slack={slack}\nwire={wire}"),
        1,
    )
}

/// A listing of three sinks with these parents of the vertices 1 to 5.
fn joined(parents: [u64; 5]) -> String {
    let [a, b, c, d, e] = parents;
    format!("slack=0\nwire=32\nsinks=3\nleaf=1,{a}\nleaf=2,{b}\nleaf=3,{c}\nnode=4,{d},4,0\nnode=5,{e},4,0\n")
}
