//! Spanning trees on the root and the sinks, the bound of Theorem 2: the least
//! one by Prim's method, and over few points every one.

use crate::net::Net;
use crate::tree::Point;

/// The root, then the sinks.
pub fn points(net: &Net) -> Vec<Point> {
    let sinks = net.sinks.iter().map(|s| s.at);
    [net.root].into_iter().chain(sinks).collect()
}

/// The length of a least spanning tree: the point nearest to those that are
/// joined is joined next.
pub fn least(points: &[Point]) -> i128 {
    let mut away: Vec<(Point, i128)> = points[1..]
        .iter()
        .map(|&p| (p, p.distance(points[0])))
        .collect();
    let mut length = 0;
    while let Some(i) = (0..away.len()).min_by_key(|&i| away[i].1) {
        let (joined, distance) = away.swap_remove(i);
        length += distance;
        for (p, near) in &mut away {
            *near = p.distance(joined).min(*near);
        }
    }
    length
}

/// The edges of every spanning tree on so many points, two or more, one for
/// each sequence of Pruefer.
pub fn all(points: usize) -> Vec<Vec<(usize, usize)>> {
    let mut sequences = vec![Vec::new()];
    for _ in 2..points {
        let longer = |s: &Vec<usize>| (0..points).map(|p| [&s[..], &[p]].concat()).collect();
        let all: Vec<Vec<Vec<usize>>> = sequences.iter().map(longer).collect();
        sequences = all.concat();
    }
    sequences.iter().map(|s| edges(points, s)).collect()
}

/// Each number of the sequence is joined to the lowest leaf, and the last two
/// points to each other.
fn edges(points: usize, sequence: &[usize]) -> Vec<(usize, usize)> {
    let mut left: Vec<usize> = (0..points).collect();
    let mut edges = Vec::new();
    for (i, &inner) in sequence.iter().enumerate() {
        let leaf = |p: &usize| !sequence[i..].contains(p);
        let at = left.iter().position(leaf).expect("a tree has a leaf");
        edges.push((left.remove(at), inner));
    }
    edges.push((left[0], left[1]));
    edges
}

pub fn length(points: &[Point], edges: &[(usize, usize)]) -> i128 {
    let distance = |&(a, b): &(usize, usize)| points[a].distance(points[b]);
    edges.iter().map(distance).sum()
}
