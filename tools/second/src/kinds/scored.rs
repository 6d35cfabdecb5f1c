//! What the kinds of the router's score have in common: trees over nets, their
//! slack chosen, and what follows from how the terms were made.

use super::listings::random_listing;
use super::weighted::any_shape;
use crate::due::with_worst_slack;
use crate::metals;
use crate::planners::{tree_of, PLAIN, SHORT_PLAIN, WEIGHTED_PLAIN};
use crate::random::Random;
use crate::ranges::NANOMETRES;
use crate::scores::Judged;
use crate::session::Session;
use second_reference::net::Net;
use second_reference::slow::listing_of;
use second_reference::terms::Terms;
use second_reference::tree::Tree;

/// The library's own plans are held to these byte for byte by other kinds.
pub fn plans(net: &Net) -> Vec<Tree> {
    let all = [PLAIN, SHORT_PLAIN, WEIGHTED_PLAIN];
    all.iter().filter_map(|&by| tree_of(net, by)).collect()
}

/// The trees of all plans, and any.
pub fn trees_over(r: &mut Random, net: &Net) -> Vec<Tree> {
    let mut all = plans(net);
    all.push(random_listing(r, &NANOMETRES, net).tree);
    all
}

/// A net of up to so many sinks, and a tree over it.
pub fn any_tree(r: &mut Random, most: i64) -> (Net, Tree) {
    let (n, make) = (r.between(1, most) as usize, any_shape(r));
    let net = metals::drawn(r, make, n);
    let mut all = trees_over(r, &net);
    let tree = all.swap_remove(r.index(all.len()));
    (net, tree)
}

pub fn judged(s: &mut Session, net: &Net, tree: Tree) -> Judged {
    s.judged(net.text(), listing_of(net, tree).text())
}

/// The tree over the net, with times that give it this worst slack.
pub fn of_slack(s: &mut Session, r: &mut Random, net: &Net, tree: &Tree, slack: i64) -> Judged {
    let net = with_worst_slack(r, net, tree, slack);
    judged(s, &net, tree.clone())
}

/// Nothing is refused.
pub fn in_range(s: &mut Session, tree: &Judged, terms: Terms) {
    let got = s.score(tree, terms);
    let what = "terms in range are refused";
    s.expect_score(got.number == 0, what, tree, (terms, got));
}

/// By 14, whatever else.
pub fn out_of_range(s: &mut Session, tree: &Judged, terms: Terms) {
    let got = s.score(tree, terms);
    let told = (got.number, got.text, got.line, got.bits) == (14, 0, 0, 0);
    s.expect_score(told, "14 is due", tree, (terms, got));
}
