//! The third plan in a session: the library's against the references', and
//! against what request 7 says of every one.

use crate::library;
use crate::planners::{tree_of, PLAIN, SHORT_PLAIN, WEIGHTED_PLAIN, WEIGHTED_SLOW};
use crate::random::Random;
use crate::session::{fill, Planned, Session, GUARD};
use crate::trees;
use second_reference::insertion::settle;
use second_reference::listing::Listing;
use second_reference::net::{Net, COORDINATE};
use second_reference::rivals;
use second_reference::tree::{children, Tree};
use second_reference::weighted::weighted_delay;

/// Up to so many sinks trees of every shape are measured.
pub const FEW_SINKS: usize = 6;
/// Up to so many the least sum is found without joining by weight; it takes long
/// on large nets, and one case in so many has it there.
const LEAST_SINKS: usize = 64;
const LARGE_LEAST: u64 = 8;

/// What was found of the library's third plans.
#[derive(Clone, Copy, Debug, Default)]
pub struct Weighted {
    /// Held to the first plan's, the short tree's and other trees' sums of
    /// weight × delay; and to the least of all, found otherwise.
    pub bounded: u64,
    pub least: u64,
    /// Whose sum is less than the first plan's and the short tree's.
    pub lighter: u64,
    /// With vertices that tie for a join.
    pub tied: u64,
    /// Of nets that the first plan refuses for their need.
    pub unreachable: u64,
    /// Nets alike but for their weights, with the same answers of all other
    /// calls; and those of them that have other third plans.
    pub pairs: u64,
    pub differing: u64,
}

impl Session {
    /// The third plan with an output of this length, by the library and by both
    /// references.
    pub fn plan_weighted(&mut self, net: &[u8], length: usize) -> Planned {
        self.count().weighted += 1;
        let mut out = fill(length + GUARD);
        let answer = library::plan_weighted(net, &mut out[..length]);
        self.count_number(3, answer.number);
        let got = (answer, &out[..]);
        self.compare_with(WEIGHTED_PLAIN, net, got);
        self.compare_with(WEIGHTED_SLOW, net, got);
        out.truncate(length);
        Planned { answer, out }
    }

    /// "The sum of weight × delay [..] is at most that of every legal tree over
    /// the net at any integer points".
    pub fn check_weighted_delay(&mut self, net: &Net, plan: &Planned) {
        let text = net.text();
        let Ok(listing) = Listing::read(plan.listing(), net) else {
            let what = "the third plan's listing cannot be read";
            return self.expect(false, what, plan.answer, &text, plan.listing());
        };
        let sum = weighted_delay(net, &listing.tree);
        self.weighted.bounded += 1;
        self.weighted.tied += u64::from(has_ties(net, &listing.tree));
        let others = [PLAIN, SHORT_PLAIN].map(|by| tree_of(net, by));
        let sums = others.map(|tree| tree.map(|tree| self.check_heavier(net, &tree, sum)));
        self.weighted.lighter += u64::from(sums.iter().all(|&other| Some(sum) < other));
        let mut r = Random::new(self.seed());
        if net.sinks.len() <= FEW_SINKS {
            self.check_every_shape(&mut r, net, sum);
        } else {
            let parent = trees::random_parents(&mut r, net.sinks.len());
            self.check_shape(&mut r, net, parent, sum);
        }
        self.check_least(net, plan, sum);
    }

    /// A tree has no lower sum.
    fn check_heavier(&mut self, net: &Net, tree: &Tree, sum: i128) -> i128 {
        self.count().heavier += 1;
        let other = weighted_delay(net, tree);
        if other < sum {
            let what = format!("{tree:?} has a weighted delay of {other}, the third plan {sum}");
            self.disagree(&what, &[("net", &net.text())]);
        }
        other
    }

    /// One of them has the very sum.
    fn check_every_shape(&mut self, r: &mut Random, net: &Net, sum: i128) {
        let mut found = false;
        for parent in rivals::all(net.sinks.len()) {
            found |= self.check_shape(r, net, parent, sum) == sum;
        }
        if !found {
            let what = format!("no tree has the third plan's weighted delay, {sum}");
            self.disagree(&what, &[("net", &net.text())]);
        }
    }

    /// With all branch points at the root, settled, near it, across the range and
    /// beyond it; the first two have the same sum.
    fn check_shape(&mut self, r: &mut Random, net: &Net, parent: Vec<usize>, sum: i128) -> i128 {
        let at_root = trees::at_root(net, parent.clone());
        let mut settled = at_root.clone();
        settle(&mut settled, 1..2 * net.sinks.len());
        let spread = r.pick(&[5, COORDINATE, 1_000_000_000_000]);
        let placed = trees::placed_beyond(r, net, parent, spread);
        let least = self.check_heavier(net, &at_root, sum);
        let other = self.check_heavier(net, &settled, sum);
        self.check_heavier(net, &placed, sum);
        if other != least {
            let what = format!("settled {settled:?} has a weighted delay of {other}, not {least}");
            self.disagree(&what, &[("net", &net.text())]);
        }
        least
    }

    fn check_least(&mut self, net: &Net, plan: &Planned, sum: i128) {
        if net.sinks.len() > LEAST_SINKS && self.seed() % LARGE_LEAST != 0 {
            return;
        }
        self.weighted.least += 1;
        let least = rivals::least_delay(net);
        let what = format!("the weighted delay is {sum}, the least of all {least}");
        let text = net.text();
        self.expect(sum == least, &what, plan.answer, &text, plan.listing());
    }
}

/// Whether two vertices that waited at the same time had the same weight. Those
/// that wait for a join are the ones made before it and joined by it or later.
fn has_ties(net: &Net, tree: &Tree) -> bool {
    let n = net.sinks.len();
    let mut weight: Vec<i64> = vec![0; 2 * n];
    for (k, sink) in net.sinks.iter().enumerate() {
        weight[k + 1] = sink.weight;
    }
    let children = children(tree, 1..2 * n);
    for v in n + 1..2 * n {
        weight[v] = children[v].iter().map(|&k| weight[k]).sum();
    }
    (n + 1..2 * n).any(|new| {
        let joined = children[new].iter().map(|&v| weight[v]).max();
        let waiting = (1..new).filter(|&v| tree.parent[v] >= new || tree.parent[v] == 0);
        waiting.filter(|&v| Some(weight[v]) == joined).count() > 1
    })
}

#[cfg(test)]
mod tests {
    use super::*;
    use crate::nets;
    use crate::ranges::NANOMETRES;
    use crate::weights::weighed;
    use second_reference::weighted::planned;

    #[test]
    fn ties_are_seen() {
        for (weights, tied) in [
            (&[3, 1, 2, 3][..], true),
            (&[1, 1], true),
            (&[1, 2, 3], true),
            (&[1, 2, 4], false),
            (&[9], false),
        ] {
            let net = nets::common(&mut Random::new(1), &NANOMETRES, weights.len());
            let net = weighed(net, weights);
            assert_eq!(has_ties(&net, &planned(&net)), tied, "{weights:?}");
        }
    }
}
