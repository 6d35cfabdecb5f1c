//! Every shape over few sinks, against the least sum of any and the third plan.

use crate::insertion::settle;
use crate::net::Net;
use crate::random_tests::{weighed, Random};
use crate::rivals;
use crate::tree::{bare, fault, Tree};
use crate::weighted::{planned, weighted_delay};
use std::collections::BTreeSet;

/// The sinks under each branch point: what is left of a shape without numbers.
fn sinks_under(n: usize, parent: &[usize]) -> BTreeSet<Vec<usize>> {
    let under = |v: usize| {
        let path = |k: usize| std::iter::successors(Some(k), |&u| Some(parent[u]));
        let reaches = |k: &usize| path(*k).take_while(|&u| u != 0).any(|u| u == v);
        (1..=n).filter(reaches).collect()
    };
    (n + 1..2 * n).map(under).collect()
}

/// 1 × 3 × 5 × .. × (2n-3) trees, all legal and all different.
#[test]
fn all_are_enumerated() {
    for (n, shapes) in [(1, 1), (2, 1), (3, 3), (4, 15), (5, 105), (6, 945)] {
        let all = rivals::all(n);
        assert!(all.iter().all(|parent| fault(n, parent).is_none()));
        let set: BTreeSet<_> = all.iter().map(|parent| sinks_under(n, parent)).collect();
        assert_eq!((all.len(), set.len()), (shapes, shapes));
    }
}

#[test]
fn least_branch_points_by_hand() {
    for (weights, least) in [
        (&[7][..], 0),
        (&[1, 1], 2),
        (&[1, 1, 1, 1], 8),
        (&[5, 3, 2, 1, 1], 25),
        (&[3, 1, 2, 3], 18),
        (&[1000, 1, 1], 1004),
    ] {
        assert_eq!(rivals::least_branch_points(weights.to_vec()), least);
    }
}

fn settled(net: &Net, parent: Vec<usize>) -> Tree {
    let mut tree = Tree {
        parent,
        ..bare(net)
    };
    settle(&mut tree, 1..2 * net.sinks.len());
    tree
}

/// The least of all, at the root and settled, is that of the sorted weights, and
/// the third plan has it.
#[test]
fn the_least_of_all() {
    let mut r = Random(7);
    for round in 0..300 {
        let mut net = weighed(&mut r, round);
        net.sinks.truncate(1 + round % 6);
        let least = rivals::least_delay(&net);
        let all = rivals::all(net.sinks.len());
        let sums = all.into_iter().map(|parent| {
            let at_root = Tree {
                parent: parent.clone(),
                ..bare(&net)
            };
            let sum = weighted_delay(&net, &at_root);
            assert_eq!(sum, weighted_delay(&net, &settled(&net, parent)));
            sum
        });
        assert_eq!(sums.min(), Some(least));
        assert_eq!(weighted_delay(&net, &planned(&net)), least);
    }
}

/// On more sinks too.
#[test]
fn the_third_plan_has_the_least() {
    let mut r = Random(77);
    for round in 0..600 {
        let net = weighed(&mut r, round);
        let sum = weighted_delay(&net, &planned(&net));
        assert_eq!(sum, rivals::least_delay(&net));
    }
}
