//! Every spanning tree over few points, against Prim's and the short tree.

use crate::random_tests::{net_of_round, Random};
use crate::tree::wire;
use crate::{short, spanning};
use std::collections::BTreeSet;

/// Cayley: p^(p-2) trees on p points, all different and each of p-1 edges.
#[test]
fn all_are_enumerated() {
    for (points, trees) in [(2, 1), (3, 3), (4, 16), (5, 125), (6, 1296)] {
        let all = spanning::all(points);
        let set: BTreeSet<Vec<(usize, usize)>> = all.iter().map(|edges| sorted(edges)).collect();
        assert_eq!((all.len(), set.len()), (trees, trees));
        assert!(all.iter().all(|edges| joins_all(points, edges)));
    }
}

fn sorted(edges: &[(usize, usize)]) -> Vec<(usize, usize)> {
    let mut edges: Vec<_> = edges.iter().map(|&(a, b)| (a.min(b), a.max(b))).collect();
    edges.sort();
    edges
}

fn joins_all(points: usize, edges: &[(usize, usize)]) -> bool {
    let mut reached = BTreeSet::from([0]);
    for _ in 0..points {
        for &(a, b) in edges {
            if reached.contains(&a) || reached.contains(&b) {
                reached.extend([a, b]);
            }
        }
    }
    edges.len() == points - 1 && reached.len() == points
}

/// The least of all is Prim's, and the short tree is no longer.
#[test]
fn the_least_of_all() {
    let mut r = Random(2);
    let mut shorter = 0;
    for round in 0..600 {
        let mut net = net_of_round(&mut r, round);
        net.sinks.truncate(1 + round % 5);
        let points = spanning::points(&net);
        let all = spanning::all(points.len());
        let least = all.iter().map(|t| spanning::length(&points, t)).min();
        assert_eq!(Some(spanning::least(&points)), least);
        let short = wire(&short::planned(&net));
        assert!(Some(short) <= least);
        shorter += u32::from(Some(short) < least);
    }
    assert!(shorter > 100, "{shorter}");
}
