//! Insertion of the sinks. Each vertex knows the least slack below it, so an
//! edge is tried in constant time.

use super::read::{Net, Point};
use super::tree::distance;

pub struct Grown {
    pub parent: Vec<usize>,
    pub worst: i64,
}

/// The first plan's tree. While it grows, sink k is the k-th to be inserted, so
/// that the inserted ones lie side by side; the numbers come back at the end.
pub fn grow(net: &Net) -> Grown {
    let order = urgent_first(net);
    let mut tree = Growing::new(net, order[0].own, 1);
    for (i, sink) in order.iter().enumerate().skip(1) {
        let v = tree.best_end(&order[..i], sink.at, net.points[0]);
        tree.split(v, i + 1, sink.own);
    }
    let mut parent = tree.parent.clone();
    for (sink, &p) in order.iter().zip(&tree.parent[1..]) {
        parent[sink.number] = p;
    }
    Grown {
        parent,
        worst: tree.worst,
    }
}

/// The largest worst slack of any legal tree. Theorem 1: the first plan reaches
/// it, whatever the ties.
pub fn best(net: &Net) -> i64 {
    let order = urgent_first(net);
    let mut tree = Growing::new(net, order[0].own, order[0].number);
    for sink in &order[1..] {
        let v = tree.any_best_end();
        tree.split(v, sink.number, sink.own);
    }
    tree.worst
}

struct Sink {
    number: usize,
    at: Point,
    /// Own slack.
    own: i64,
}

fn urgent_first(net: &Net) -> Vec<Sink> {
    let root = net.points[0];
    let mut order: Vec<Sink> = (1..=net.sinks())
        .map(|number| {
            let at = net.points[number];
            let own = net.arrivals[number] - net.wire.delay(root, at);
            Sink { number, at, own }
        })
        .collect();
    order.sort_unstable_by_key(|s| (s.own, s.number));
    order
}

/// Below every slack, with room to subtract.
const ABSENT: i64 = i64::MIN / 2;

struct Growing {
    c: i64,
    /// Worst slack so far.
    worst: i64,
    /// Number of the next branch point.
    new: usize,
    parent: Vec<usize>,
    children: Vec<[usize; 2]>,
    /// Branch points above the vertex.
    depth: Vec<i64>,
    /// Least slack of the sinks at or below the vertex; `ABSENT` before it is
    /// inserted.
    least: Vec<i64>,
    stack: Vec<usize>,
}

impl Growing {
    fn new(net: &Net, own: i64, first: usize) -> Growing {
        let n = net.sinks();
        let mut least = vec![ABSENT; 2 * n];
        least[first] = own;
        Growing {
            c: net.branch,
            worst: own,
            new: n + 1,
            parent: vec![0; 2 * n],
            children: vec![[0; 2]; 2 * n],
            depth: vec![0; 2 * n],
            least,
            stack: Vec::new(),
        }
    }

    /// An edge is best by worst slack if the least slack below it is this or
    /// more, given the inserted sinks' slacks. The new sink has the largest own
    /// slack of all, so it is no worse off than those below the edge.
    fn best_least(&self, sinks: &[i64]) -> i64 {
        let keeps_worst = self.worst + self.c;
        if sinks.iter().rev().any(|&least| least >= keeps_worst) {
            return keeps_worst;
        }
        *sinks.iter().max().expect("a sink is inserted")
    }

    /// The lower end of the edge to split for a sink at this point, sinks 1 and
    /// up being inserted: best by worst slack, then nearest, then the lowest
    /// number. All branch points stand at the root and have higher numbers than
    /// the sinks, so they matter only if it is nearer than the nearest sink.
    fn best_end(&self, inserted: &[Sink], at: Point, root: Point) -> usize {
        let sinks = &self.least[1..=inserted.len()];
        let best = self.best_least(sinks);
        let (mut near, mut number, mut end) = (i64::MAX, 0, 0);
        for (i, (sink, &least)) in inserted.iter().zip(sinks).enumerate() {
            if least < best {
                continue;
            }
            let d = distance(sink.at, at);
            if d < near || (d == near && sink.number < number) {
                (near, number, end) = (d, sink.number, i + 1);
            }
        }
        if near <= distance(root, at) {
            return end;
        }
        let first = self.least.len() / 2 + 1;
        (first..self.new)
            .find(|&v| self.least[v] >= best)
            .unwrap_or(end)
    }

    /// The lower end of an edge that is best by worst slack. No edge raises the
    /// worst slack, so the first that keeps it is taken.
    fn any_best_end(&self) -> usize {
        let mut best = (i64::MIN, 0);
        for (v, &least) in self.least[..self.new].iter().enumerate().skip(1) {
            let after = self.worst.min(least - self.c);
            if after > best.0 {
                best = (after, v);
                if after == self.worst {
                    break;
                }
            }
        }
        best.1
    }

    /// Splits the edge above v for this sink.
    fn split(&mut self, v: usize, sink: usize, own: i64) {
        let (up, new) = (self.parent[v], self.new);
        self.new += 1;
        self.parent[new] = up;
        self.children[new] = [v, sink];
        self.depth[new] = self.depth[v];
        for child in &mut self.children[up] {
            if *child == v {
                *child = new;
            }
        }
        self.parent[v] = new;
        self.lower(v);
        self.parent[sink] = new;
        self.depth[sink] = self.depth[new] + 1;
        self.least[sink] = own - self.c * self.depth[sink];
        self.least[new] = self.least[v].min(self.least[sink]);
        self.worst = self.worst.min(self.least[new]);
        self.raise(up);
    }

    /// One more branch point above v and all below it.
    fn lower(&mut self, v: usize) {
        self.stack.push(v);
        while let Some(v) = self.stack.pop() {
            self.depth[v] += 1;
            self.least[v] -= self.c;
            let [a, b] = self.children[v];
            if a != 0 {
                self.stack.extend([a, b]);
            }
        }
    }

    /// Least slacks from a branch point up, as far as they change.
    fn raise(&mut self, mut v: usize) {
        while v != 0 {
            let [a, b] = self.children[v];
            let least = self.least[a].min(self.least[b]);
            if least == self.least[v] {
                break;
            }
            self.least[v] = least;
            v = self.parent[v];
        }
    }
}
