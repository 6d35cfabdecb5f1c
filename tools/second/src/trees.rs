//! Legal trees: random ones, and all of them for a few sinks.

use crate::nets::shuffle;
use crate::pins;
use crate::random::Random;
use crate::ranges::Ranges;
use second_reference::net::Net;
use second_reference::tree::{Point, Tree};

/// Parents of a random legal tree, its branch points numbered at random.
pub fn random_parents(r: &mut Random, n: usize) -> Vec<usize> {
    let mut numbers: Vec<usize> = (n + 1..2 * n).collect();
    shuffle(r, &mut numbers);
    let mut parent = vec![0; 2 * n];
    let mut tops: Vec<usize> = (1..=n).collect();
    let path = r.once_in(3);
    for new in numbers {
        let first = if path {
            tops.len() - 1
        } else {
            r.index(tops.len())
        };
        let first = tops.swap_remove(first);
        let second = r.index(tops.len());
        let second = tops.swap_remove(second);
        parent[first] = new;
        parent[second] = new;
        tops.push(new);
    }
    parent
}

/// Parents of one long path: the branch points hang one on the other, and a
/// sink on each, two on the last.
pub fn path_parents(n: usize) -> Vec<usize> {
    if n == 1 {
        return vec![0, 0];
    }
    let sinks = (1..=n).map(|k| (n + k).min(2 * n - 1));
    let branch_points = (n..2 * n - 1).map(|above| if above == n { 0 } else { above });
    [0].into_iter().chain(sinks).chain(branch_points).collect()
}

/// The tree of these parents over the net, branch points in the ranges and at
/// most so far from the root.
pub fn placed(r: &mut Random, ranges: &Ranges, net: &Net, parent: Vec<usize>, reach: i64) -> Tree {
    over(net, parent, || pins::about(r, ranges, net.root, reach))
}

/// Branch points beyond the range too.
pub fn placed_beyond(r: &mut Random, net: &Net, parent: Vec<usize>, spread: i64) -> Tree {
    over(net, parent, || pins::point(r, spread))
}

pub fn at_root(net: &Net, parent: Vec<usize>) -> Tree {
    over(net, parent, || net.root)
}

fn over(net: &Net, parent: Vec<usize>, place: impl FnMut() -> Point) -> Tree {
    let mut point: Vec<Point> = vec![net.root];
    point.extend(net.sinks.iter().map(|s| s.at));
    point.resize_with(parent.len(), place);
    Tree { parent, point }
}

/// All parents in which the root has one child and each branch point two,
/// reached or not.
pub fn all_with_right_counts(n: usize) -> Vec<Vec<usize>> {
    let mut found = Vec::new();
    let mut room = vec![0; 2 * n];
    room[0] = 1;
    room[n + 1..].fill(2);
    extend(n, &mut vec![0], &mut room, &mut found);
    found
}

fn extend(n: usize, parent: &mut Vec<usize>, room: &mut [usize], found: &mut Vec<Vec<usize>>) {
    if parent.len() == 2 * n {
        found.push(parent.clone());
        return;
    }
    for p in 0..2 * n {
        if room[p] > 0 {
            room[p] -= 1;
            parent.push(p);
            extend(n, parent, room, found);
            parent.pop();
            room[p] += 1;
        }
    }
}

/// All parents whatsoever from the given numbers.
pub fn all_from(n: usize, numbers: &[usize]) -> Vec<Vec<usize>> {
    let mut all = vec![vec![0]];
    for _ in 1..2 * n {
        all = all
            .iter()
            .flat_map(|start| numbers.iter().map(|&p| [&start[..], &[p]].concat()))
            .collect();
    }
    all
}

/// Whether an edge above a branch point was split: the one that splits it is
/// made after its lower end, so it has the higher number.
pub fn split_above_branch_point(tree: &Tree) -> bool {
    let vertices = tree.parent.len();
    (vertices / 2 + 1..vertices).any(|v| tree.parent[v] > v)
}
