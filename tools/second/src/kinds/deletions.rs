//! One pin is deleted (02, request 9) from trees of every plan and any others.

use super::deleted::{drawn, last};
use super::scored::{judged, plans, trees_over};
use crate::deleted::Room;
use crate::nets;
use crate::random::Random;
use crate::ranges::NANOMETRES;
use crate::scores::Judged;
use crate::session::Session;
use crate::shapes::{MARKED, METALS, RANGE_END, SHORT, WEIGHTED};
use crate::trees;
use second_reference::net::{Net, COORDINATE};
use second_reference::tree::{fault, Tree};

/// Up to so many sinks each is deleted.
const EVERY: usize = 8;

/// Net A's listing of 01, and what is left without each sink, worked out by hand.
const A_LISTING: &[u8] =
    b"slack=0\nwire=32\nsinks=3\nleaf=1,5\nleaf=2,5\nleaf=3,4\nnode=4,0,4,0\nnode=5,4,4,0\n";
const A_SHORTER: [(&[u8], &[u8]); 3] = [
    (
        b"root=0,0\nbranch=20\nwire=2,2\nneed=0\nsinks=2\nsink=4,6,60,1\nsink=10,10,70,1\n",
        b"slack=10\nwire=26\nsinks=2\nleaf=1,3\nleaf=2,3\nnode=3,0,4,0\n",
    ),
    (
        b"root=0,0\nbranch=20\nwire=2,2\nneed=0\nsinks=2\nsink=10,0,100,1\nsink=10,10,70,1\n",
        b"slack=10\nwire=26\nsinks=2\nleaf=1,3\nleaf=2,3\nnode=3,0,4,0\n",
    ),
    (
        b"root=0,0\nbranch=20\nwire=2,2\nneed=0\nsinks=2\nsink=10,0,100,1\nsink=4,6,60,1\n",
        b"slack=20\nwire=16\nsinks=2\nleaf=1,3\nleaf=2,3\nnode=3,0,4,0\n",
    ),
];

pub fn marked(s: &mut Session, r: &mut Random) {
    let a = s.judged(MARKED[0].1.to_vec(), A_LISTING.to_vec());
    for (sink, due) in (1..).zip(A_SHORTER) {
        as_worked_out(s, &a, sink, due);
    }
    let all = MARKED.iter().chain(&METALS).chain(&RANGE_END);
    for (_, text) in all.chain(&SHORT).chain(&WEIGHTED) {
        let Ok(net) = Net::read(text) else {
            s.disagree("the slow reference refuses a marked net", &[("net", text)]);
            continue;
        };
        for tree in plans(&net) {
            each_or_some(s, r, &net, tree);
        }
    }
}

fn as_worked_out(s: &mut Session, texts: &Judged, sink: usize, due: (&[u8], &[u8])) {
    let room = Room::as_before(texts);
    let got = s.delete_pin(texts, sink, room);
    let same = (got.net(), got.listing()) == due;
    let what = "other texts are worked out by hand";
    s.expect_deletion(same, what, texts, (sink, room), &got);
}

/// Each sink of few; else the first, the last and some. A lone one is refused.
fn each_or_some(s: &mut Session, r: &mut Random, net: &Net, tree: Tree) {
    let n = net.sinks.len();
    let texts = judged(s, net, tree);
    if n == 1 {
        return last(s, &texts);
    }
    let sinks = if n <= EVERY {
        (1..=n).collect()
    } else {
        vec![1, n, 1 + r.index(n), 1 + r.index(n)]
    };
    for sink in sinks {
        s.shorten(&texts, sink);
    }
}

/// Of all plans and any tree, 1 to 40 sinks.
pub fn random(s: &mut Session, r: &mut Random) {
    let n = r.between(1, 40) as usize;
    let n = r.pick(&[n, n.min(EVERY)]);
    let net = drawn(r, n);
    for tree in trees_over(r, &net) {
        each_or_some(s, r, &net, tree);
    }
}

/// Every legal tree over 2 to 4 sinks, its branch points numbered in every way.
pub fn few(s: &mut Session, r: &mut Random) {
    let n = r.between(2, 4) as usize;
    let net = drawn(r, n);
    let reach = r.pick(&[3, 5_000_000, COORDINATE]);
    for parent in trees::all_with_right_counts(n) {
        if fault(n, &parent).is_none() {
            let tree = trees::placed(r, &NANOMETRES, &net, parent, reach);
            each_or_some(s, r, &net, tree);
        }
    }
}

/// Of the most sinks, and about the numbers that lose a digit.
pub fn large(s: &mut Session, r: &mut Random) {
    let n = r.pick(&[9, 10, 11, 99, 100, 101, 200, 499, 500, 501, 511, 512, 512]);
    let net = drawn(r, n);
    for tree in trees_over(r, &net) {
        each_or_some(s, r, &net, tree);
    }
    let longest = nets::longest(&NANOMETRES);
    let tree = trees_over(r, &longest).pop().expect("any tree");
    each_or_some(s, r, &longest, tree);
}
