//! Scores that are zero, by all that makes them so, and some next to them.

use super::scored::{any_tree, in_range, of_slack};
use crate::random::Random;
use crate::scores::Judged;
use crate::session::Session;
use crate::terms::{self, CAP, LOWEST, WEIGHT};
use crate::trees;
use second_reference::net::Net;
use second_reference::terms::Terms;
use second_reference::tree::{wire, Tree};

pub fn all(s: &mut Session, r: &mut Random) {
    let (net, tree) = any_tree(r, 12);
    balanced(s, r, &net, &tree);
    weightless(s, r, &net, &tree);
    wireless(s, r, net);
}

fn zero(s: &mut Session, tree: &Judged, terms: Terms) {
    let got = s.score(tree, terms);
    let holds = (got.number, got.bits) == (0, 0);
    s.expect_score(holds, "plus zero is due", tree, (terms, got));
}

/// A × min(..) = B × wire: the slack or the cap is chosen by the wire.
fn balanced(s: &mut Session, r: &mut Random, net: &Net, tree: &Tree) {
    let beta = terms::weight(r).max(1);
    let whole = beta * wire(tree) as i64;
    // B itself is among them: no wire is as long as the cap may be.
    let dividing: Vec<i64> = (1..=WEIGHT.1)
        .filter(|alpha| whole % alpha == 0 && whole / alpha <= CAP.1)
        .collect();
    let alpha = r.pick(&dividing);
    let least = whole / alpha;
    let higher = r.between(least, CAP.1);
    let by_slack = of_slack(s, r, net, tree, least);
    for cap in [least, higher, CAP.1] {
        zero(s, &by_slack, Terms::new(alpha, beta, cap));
    }
    let by_cap = of_slack(s, r, net, tree, higher);
    let terms = Terms::new(alpha, beta, least);
    zero(s, &by_cap, terms);
    next_to(s, &by_slack, terms);
    next_to(s, &by_cap, terms);
}

/// Each term one less or one more, if it stays in range.
fn next_to(s: &mut Session, tree: &Judged, terms: Terms) {
    let Terms { alpha, beta, cap } = terms;
    for by in [-1, 1] {
        let weight = |from: i64| (from + by).clamp(WEIGHT.0, WEIGHT.1);
        in_range(s, tree, Terms::new(weight(alpha), beta, cap));
        in_range(s, tree, Terms::new(alpha, weight(beta), cap));
        let cap = (cap + by).clamp(CAP.0, CAP.1);
        in_range(s, tree, Terms::new(alpha, beta, cap));
    }
}

/// Neither counts, whatever the slack.
fn weightless(s: &mut Session, r: &mut Random, net: &Net, tree: &Tree) {
    let any = r.between(LOWEST, -1);
    for slack in [LOWEST, any, -1, 0, 1] {
        let tree = of_slack(s, r, net, tree, slack);
        let cap = terms::cap(r, slack);
        zero(s, &tree, Terms::new(0, 0, cap));
    }
}

/// All pins and branch points at the root: B counts for nothing, nor A where the
/// slack or the cap is 0.
fn wireless(s: &mut Session, r: &mut Random, mut net: Net) {
    for sink in &mut net.sinks {
        sink.at = net.root;
    }
    let parent = trees::random_parents(r, net.sinks.len());
    let tree = trees::at_root(&net, parent);
    let (below, above) = (r.between(LOWEST, -1), r.between(1, CAP.1));
    for slack in [LOWEST, below, 0, above] {
        let tree = of_slack(s, r, &net, &tree, slack);
        let (alpha, beta) = (terms::weight(r), terms::weight(r));
        zero(s, &tree, Terms::new(0, beta, CAP.1));
        if slack >= 0 {
            zero(s, &tree, Terms::new(alpha, beta, CAP.0));
        }
        in_range(s, &tree, Terms::new(alpha, beta, CAP.1));
    }
}
