//! The router's score (02, request 8) of trees of every plan and of any others,
//! by terms in range.

use super::scored::{in_range, judged, of_slack, plans, trees_over};
use super::weighted::any_shape;
use crate::metals;
use crate::random::Random;
use crate::scores::Judged;
use crate::session::Session;
use crate::shapes::{MARKED, METALS, RANGE_END, SHORT, WEIGHTED};
use crate::terms::{self, CAP, LOWEST, WEIGHT};
use crate::trees;
use second_reference::net::{Factors, Net, COORDINATE};
use second_reference::terms::Terms;
use second_reference::tree::Point;

/// Scores of a tree by A, B and the cap, worked out by hand.
struct Worked {
    net: &'static str,
    listing: &'static [u8],
    scores: &'static [([i64; 3], f64)],
}

/// First plans of marked nets.
const WORKED: [Worked; 3] = [
    Worked {
        net: "marked-a-3",
        listing:
            b"slack=0\nwire=32\nsinks=3\nleaf=1,5\nleaf=2,5\nleaf=3,4\nnode=4,0,4,0\nnode=5,4,4,0\n",
        scores: &[
            ([1024, 1024, 0], -32.0),
            ([1024, 1, CAP.1], -0.03125),
            ([0, 512, 1], -16.0),
            ([1024, 0, CAP.1], 0.0),
        ],
    },
    Worked {
        net: "marked-alone-1",
        listing: b"slack=-4\nwire=7\nsinks=1\nleaf=1,0\n",
        scores: &[
            ([1024, 1024, 0], -11.0),
            ([1, 0, CAP.1], -0.00390625),
            ([0, 1024, 0], -7.0),
            ([0, 0, 0], 0.0),
        ],
    },
    Worked {
        net: "marked-equal-2",
        listing: b"slack=2\nwire=1\nsinks=2\nleaf=1,3\nleaf=2,3\nnode=3,0,0,0\n",
        scores: &[
            ([1024, 1024, 0], -1.0),
            ([1024, 1024, 1], 0.0),
            ([1024, 1024, 2], 1.0),
            ([1024, 1024, 3], 1.0),
            ([512, 1024, 2], 0.0),
            ([512, 1024, 1], -0.5),
        ],
    },
];

pub fn marked(s: &mut Session, _: &mut Random) {
    let all = MARKED.iter().chain(&METALS).chain(&RANGE_END);
    for (name, text) in all.chain(&SHORT).chain(&WEIGHTED) {
        let Ok(net) = Net::read(text) else {
            s.disagree("the slow reference refuses a marked net", &[("net", text)]);
            continue;
        };
        for tree in plans(&net) {
            let tree = judged(s, &net, tree);
            every_end(s, &tree);
        }
        for worked in WORKED.iter().filter(|worked| worked.net == *name) {
            let tree = s.judged(text.to_vec(), worked.listing.to_vec());
            as_worked_out(s, &tree, worked.scores);
        }
    }
}

/// A and B at their ends and between, the cap at its ends and at the slack.
fn every_end(s: &mut Session, tree: &Judged) {
    let weights = [WEIGHT.0, WEIGHT.1 / 2, WEIGHT.1];
    let slack = tree.answer.slack.clamp(CAP.0, CAP.1);
    for alpha in weights {
        for beta in weights {
            for cap in [CAP.0, slack, CAP.1] {
                s.score(tree, Terms::new(alpha, beta, cap));
            }
        }
    }
}

fn as_worked_out(s: &mut Session, tree: &Judged, scores: &[([i64; 3], f64)]) {
    for &([alpha, beta, cap], score) in scores {
        let terms = Terms::new(alpha, beta, cap);
        let got = s.score(tree, terms);
        let same = (got.number, got.bits) == (0, score.to_bits());
        let what = format!("{score} is worked out by hand");
        s.expect_score(same, &what, tree, (terms, got));
    }
}

/// Each tree over the net by so many terms.
fn score_trees(s: &mut Session, r: &mut Random, net: &Net, count: usize) {
    for tree in trees_over(r, net) {
        let tree = judged(s, net, tree);
        for _ in 0..count {
            let terms = terms::any(r, tree.answer.slack);
            s.score(&tree, terms);
        }
    }
}

pub fn random(s: &mut Session, r: &mut Random) {
    let (n, make) = (r.between(1, 40) as usize, any_shape(r));
    let net = metals::drawn(r, make, n);
    score_trees(s, r, &net, 6);
}

/// Of the most sinks, and the scores that are farthest from zero.
pub fn large(s: &mut Session, r: &mut Random) {
    let make = any_shape(r);
    let net = metals::drawn(r, make, 512);
    score_trees(s, r, &net, 3);
    farthest(s, r, net);
}

/// A path from corner to corner of the range, on metal so quick that the slack can
/// be anything.
fn farthest(s: &mut Session, r: &mut Random, mut net: Net) {
    let n = net.sinks.len();
    net.wire = Factors::equal(1);
    let mut tree = trees::at_root(&net, trees::path_parents(n));
    for (v, at) in tree.point.iter_mut().enumerate().skip(n + 1) {
        let corner = if v % 2 == 0 { COORDINATE } else { -COORDINATE };
        *at = Point::new(corner, corner);
    }
    for slack in [LOWEST, CAP.1] {
        let tree = of_slack(s, r, &net, &tree, slack);
        for (alpha, beta) in [(WEIGHT.1, WEIGHT.1), (WEIGHT.1, WEIGHT.0), WEIGHT] {
            in_range(s, &tree, Terms::new(alpha, beta, CAP.1));
        }
    }
}
