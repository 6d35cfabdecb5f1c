//! Points, trees, legality and the two measures, as the order defines them.

use crate::net::Net;

/// Wide, since branch points may stand anywhere.
#[derive(Clone, Copy, Debug, PartialEq, Eq)]
pub struct Point {
    pub x: i128,
    pub y: i128,
}

impl Point {
    pub fn new(x: i64, y: i64) -> Point {
        Point {
            x: x as i128,
            y: y as i128,
        }
    }

    /// In plain nanometres: of wire, of nearness, of the pin limit.
    pub fn distance(self, other: Point) -> i128 {
        (self.x - other.x).abs() + (self.y - other.y).abs()
    }
}

/// Vertex 0 is the root, 1 to n the sinks, n+1 to 2n-1 the branch points.
/// `parent[0]` means nothing.
#[derive(Clone, Debug, PartialEq, Eq)]
pub struct Tree {
    pub parent: Vec<usize>,
    pub point: Vec<Point>,
}

/// The first sink on the root, whichever it is: all parents 0, all branch points
/// at the root.
pub fn bare(net: &Net) -> Tree {
    let n = net.sinks.len();
    let mut point: Vec<Point> = vec![net.root];
    point.extend(net.sinks.iter().map(|s| s.at));
    point.resize(2 * n, net.root);
    Tree {
        parent: vec![0; 2 * n],
        point,
    }
}

/// Why parents make no legal tree.
#[derive(Clone, Copy, Debug, PartialEq, Eq)]
pub enum Fault {
    SinkParent(usize),
    RootChildren,
    BranchChildren(usize),
    Unreached(usize),
}

/// The first fault of the parents of vertices 1 to 2n-1, in the order's order.
pub fn fault(n: usize, parent: &[usize]) -> Option<Fault> {
    let children = |v: usize| (1..2 * n).filter(|&k| parent[k] == v).count();
    if let Some(v) = (1..2 * n).find(|&v| (1..=n).contains(&parent[v])) {
        return Some(Fault::SinkParent(v));
    }
    if children(0) != 1 {
        return Some(Fault::RootChildren);
    }
    if let Some(v) = (n + 1..2 * n).find(|&v| children(v) != 2) {
        return Some(Fault::BranchChildren(v));
    }
    (1..2 * n)
        .find(|&v| !reached(n, parent, v))
        .map(Fault::Unreached)
}

/// A path without a repeated vertex has at most 2n-1 edges.
fn reached(n: usize, parent: &[usize], mut v: usize) -> bool {
    for _ in 0..2 * n {
        if v == 0 {
            return true;
        }
        v = parent[v];
    }
    false
}

/// The vertices from v up to the root, both included, in a legal tree.
pub fn path(tree: &Tree, v: usize) -> impl Iterator<Item = usize> + '_ {
    std::iter::successors(Some(v), |&v| (v != 0).then(|| tree.parent[v]))
}

/// Branch points on the path to the root, v itself not counted.
pub fn branch_points_above(tree: &Tree, v: usize) -> i128 {
    path(tree, v).skip(1).filter(|&u| u != 0).count() as i128
}

/// Slack of sink k over a legal tree.
pub fn slack(net: &Net, tree: &Tree, k: usize) -> i128 {
    let delay: i128 = path(tree, k)
        .take_while(|&v| v != 0)
        .map(|v| net.wire.delay(tree.point[v], tree.point[tree.parent[v]]))
        .sum();
    let sink = &net.sinks[k - 1];
    sink.arrival as i128 - delay - net.branch as i128 * branch_points_above(tree, k)
}

/// The children of each vertex, of those given.
pub fn children(tree: &Tree, given: impl Iterator<Item = usize>) -> Vec<Vec<usize>> {
    let mut children = vec![Vec::new(); tree.parent.len()];
    for v in given {
        children[tree.parent[v]].push(v);
    }
    children
}

/// The root and all below it, each after its children.
pub fn leaves_up(children: &[Vec<usize>]) -> Vec<usize> {
    let mut order = vec![0];
    let mut next = 0;
    while next < order.len() {
        order.extend(&children[order[next]]);
        next += 1;
    }
    order.reverse();
    order
}

pub fn worst_slack(net: &Net, tree: &Tree) -> i128 {
    (1..=net.sinks.len())
        .map(|k| slack(net, tree, k))
        .min()
        .expect("a net has a sink")
}

pub fn wire(tree: &Tree) -> i128 {
    (1..tree.parent.len())
        .map(|v| tree.point[v].distance(tree.point[tree.parent[v]]))
        .sum()
}

/// The coordinate-wise median of three points.
pub fn median(a: Point, b: Point, c: Point) -> Point {
    let middle = |p: i128, q: i128, r: i128| {
        let mut three = [p, q, r];
        three.sort();
        three[1]
    };
    Point {
        x: middle(a.x, b.x, c.x),
        y: middle(a.y, b.y, c.y),
    }
}
