//! The short tree. Each waiting sink knows its best edge; it looks at all edges
//! anew only where that edge was split and what is left of it is farther off.

use super::read::{Net, Point};
use super::tree::distance;

pub struct Grown {
    pub parent: Vec<usize>,
    pub points: Vec<Point>,
}

pub fn grow(net: &Net) -> Grown {
    grow_by(net, Waiting::after_split)
}

/// Every waiting sink looks at all edges anew each time: a loop in a loop in a
/// loop.
pub fn grow_trying_all(net: &Net) -> Grown {
    grow_by(net, |sink, edges, _| sink.try_all(edges))
}

/// The third is the place of the edge that was split.
fn grow_by(net: &Net, renew: impl Fn(&mut Waiting, &[Edge], usize)) -> Grown {
    let n = net.sinks();
    let root = net.points[0];
    let first = (1..=n)
        .min_by_key(|&k| distance(net.points[k], root))
        .expect("a net has a sink");
    let mut parent = vec![0; 2 * n];
    let mut points = net.points.clone();
    points.resize(2 * n, root);
    let mut edges = Vec::with_capacity(2 * n);
    edges.push(Edge::new(first, root, points[first]));
    // Where the edge above each vertex stands among the edges.
    let mut place = vec![0; 2 * n];
    let mut waiting: Vec<Waiting> = (1..=n)
        .filter(|&k| k != first)
        .map(|k| Waiting::new(k, points[k], &edges))
        .collect();
    for new in n + 1..2 * n {
        let Waiting { sink, at, end, .. } = waiting.remove(best(&waiting));
        let split = place[end];
        let x = edges[split].nearest(at);
        points[new] = x;
        edges[split] = Edge::new(end, x, points[end]);
        (place[sink], place[new]) = (edges.len(), edges.len() + 1);
        edges.push(Edge::new(sink, x, at));
        edges.push(Edge::new(new, points[parent[end]], x));
        parent[new] = parent[end];
        parent[end] = new;
        parent[sink] = new;
        for sink in &mut waiting {
            renew(sink, &edges, split);
        }
    }
    Grown { parent, points }
}

/// The first of the least: the sinks wait in rising order.
fn best(waiting: &[Waiting]) -> usize {
    let mut best = 0;
    for (i, sink) in waiting.iter().enumerate() {
        if sink.added < waiting[best].added {
            best = i;
        }
    }
    best
}

/// An edge may run anywhere in the box of its two ends.
#[derive(Clone, Copy)]
struct Edge {
    /// The lower end's number.
    end: usize,
    low: Point,
    high: Point,
}

impl Edge {
    fn new(end: usize, a: Point, b: Point) -> Edge {
        Edge {
            end,
            low: (a.0.min(b.0), a.1.min(b.1)),
            high: (a.0.max(b.0), a.1.max(b.1)),
        }
    }

    /// The median of the ends and the point.
    fn nearest(&self, at: Point) -> Point {
        (
            at.0.clamp(self.low.0, self.high.0),
            at.1.clamp(self.low.1, self.high.1),
        )
    }

    /// The wire that joins the point to the edge.
    fn added(&self, at: Point) -> i64 {
        let x = (self.low.0 - at.0).max(at.0 - self.high.0).max(0);
        let y = (self.low.1 - at.1).max(at.1 - self.high.1).max(0);
        x + y
    }
}

struct Waiting {
    sink: usize,
    at: Point,
    /// By its best edge, the lowest lower end of those that add as little.
    added: i64,
    end: usize,
}

impl Waiting {
    fn new(sink: usize, at: Point, edges: &[Edge]) -> Waiting {
        let mut waiting = Waiting {
            sink,
            at,
            added: i64::MAX,
            end: 0,
        };
        waiting.try_all(edges);
        waiting
    }

    fn try_all(&mut self, edges: &[Edge]) {
        self.added = i64::MAX;
        for edge in edges {
            self.try_one(edge);
        }
    }

    fn try_one(&mut self, edge: &Edge) {
        let added = edge.added(self.at);
        if added < self.added || (added == self.added && edge.end < self.end) {
            (self.added, self.end) = (added, edge.end);
        }
    }

    /// The last two edges are new, and this one is the half of what it was. A
    /// half is no nearer than the whole, so it matters only to its own sinks.
    fn after_split(&mut self, edges: &[Edge], half: usize) {
        let half = &edges[half];
        if self.end == half.end && half.added(self.at) > self.added {
            return self.try_all(edges);
        }
        for edge in &edges[edges.len() - 2..] {
            self.try_one(edge);
        }
    }
}
