//! What every planner by insertion shares: the order of the sinks, the rule
//! among the edges, the splitting and the settling. How the worst slack of an
//! enlarged tree is found is left to the planner.

use crate::kraft;
use crate::net::Net;
use crate::tree::{bare, branch_points_above, children, leaves_up, median, slack, Tree};
use std::cmp::Reverse;

/// One sink is to be inserted into the tree so far.
pub struct Insertion<'a> {
    pub net: &'a Net,
    pub tree: &'a Tree,
    /// The tree's sinks, in order of insertion.
    pub inserted: &'a [usize],
    pub sink: usize,
    /// The branch point that the sink makes.
    pub new: usize,
}

impl Insertion<'_> {
    /// Of the tree's edges.
    pub fn lower_ends(&self) -> impl Iterator<Item = usize> + '_ {
        let branch_points = self.net.sinks.len() + 1..self.new;
        self.inserted.iter().copied().chain(branch_points)
    }

    /// The lower end of the edge to split, given the worst slack of each
    /// enlarged tree.
    /// 01, step 3: "The edge is the one that gives the largest worst slack of
    /// the enlarged tree". 02, request 1: "Among edges of equal worst slack,
    /// take the one whose lower end is nearest to the new sink, branch points
    /// counted at the root's position as during insertion; then the lowest
    /// number."
    pub fn best_end(&self, worst: impl Fn(usize) -> i128) -> usize {
        let tree = self.tree;
        self.lower_ends()
            .max_by_key(|&v| {
                let distance = tree.point[v].distance(tree.point[self.sink]);
                (worst(v), Reverse(distance), Reverse(v))
            })
            .expect("a tree has an edge")
    }

    /// The edge above v is split by the new branch point, which gets the sink.
    pub fn enlarged(&self, v: usize) -> Tree {
        let mut enlarged = self.tree.clone();
        enlarged.parent[self.new] = self.tree.parent[v];
        enlarged.parent[v] = self.new;
        enlarged.parent[self.sink] = self.new;
        enlarged
    }

    /// The worst slack of the enlarged tree, built and measured.
    pub fn measured(&self, v: usize) -> i128 {
        let enlarged = self.enlarged(v);
        self.inserted
            .iter()
            .chain([&self.sink])
            .map(|&k| slack(self.net, &enlarged, k))
            .min()
            .expect("not empty")
    }
}

/// The first plan's tree, settled; `choose` gives the lower end of each edge
/// to split.
pub fn planned(net: &Net, mut choose: impl FnMut(&Insertion) -> usize) -> Tree {
    let n = net.sinks.len();
    let mut order: Vec<usize> = (1..=n).collect();
    order.sort_by_key(|&k| (net.own_slack(k), k));
    let mut tree = bare(net);
    for i in 1..n {
        let insertion = Insertion {
            net,
            tree: &tree,
            inserted: &order[..i],
            sink: order[i],
            new: n + i,
        };
        tree = insertion.enlarged(choose(&insertion));
        check_depths(&tree, &order[..=i]);
    }
    settle(&mut tree, 1..2 * n);
    tree
}

/// The sum of 2^-(branch points above the sink) is exactly 1.
fn check_depths(tree: &Tree, inserted: &[usize]) {
    let depths: Vec<i128> = inserted
        .iter()
        .map(|&k| branch_points_above(tree, k))
        .collect();
    if let Some((sum, one)) = kraft::whole_sum(&depths) {
        assert_eq!(sum, one, "the depths' powers do not add up to 1");
    }
}

/// From the leaves up: a branch point moves once its children have settled,
/// whatever their numbers.
pub fn settle(tree: &mut Tree, lower_ends: impl Iterator<Item = usize>) {
    let root = tree.point[0];
    let children = children(tree, lower_ends);
    for v in leaves_up(&children) {
        if let [a, b] = children[v][..] {
            tree.point[v] = median(root, tree.point[a], tree.point[b]);
        }
    }
}
