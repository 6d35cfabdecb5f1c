//! The short tree word by word: P2 of document 000 as 02's request 6 has it. At
//! each step every waiting sink is tried on every edge.

use crate::answer::{Answer, Refusal};
use crate::net::Net;
use crate::slow;
use crate::tree::{bare, median, Point, Tree};

/// Beyond this many sinks it takes too long for many nets.
pub const MOST_SINKS: usize = 64;

pub fn plan(net: &[u8], out: &mut [u8]) -> Answer {
    Answer::of(try_plan(net, out))
}

/// "It ignores need, so never gives 5".
fn try_plan(net: &[u8], out: &mut [u8]) -> Result<(i64, u64, i64), Refusal> {
    let net = Net::read(net)?;
    slow::written(&net, planned(&net), out)
}

/// The tree as it grew: it "settles nothing".
pub fn planned(net: &Net) -> Tree {
    let n = net.sinks.len();
    let mut growing = Growing::new(net);
    for new in n + 1..2 * n {
        let (sink, end) = growing.least();
        growing.split(sink, end, new);
    }
    growing.tree
}

/// The tree so far. An edge is known by its lower end.
pub struct Growing {
    pub tree: Tree,
    pub lower_ends: Vec<usize>,
    pub waiting: Vec<usize>,
}

impl Growing {
    /// "first the sink nearest to the root (lowest number on a tie)"
    pub fn new(net: &Net) -> Growing {
        let distance = |k: usize| net.root.distance(net.sinks[k - 1].at);
        let mut waiting: Vec<usize> = (1..=net.sinks.len()).collect();
        waiting.sort_by_key(|&k| (distance(k), k));
        Growing {
            tree: bare(net),
            lower_ends: vec![waiting.remove(0)],
            waiting,
        }
    }

    /// "then always the sink, edge and point that add least plain wire"; "Ties:
    /// lowest sink, then lowest lower end."
    pub fn least(&self) -> (usize, usize) {
        let tries = self.waiting.iter().flat_map(|&sink| {
            let ends = self.lower_ends.iter();
            ends.map(move |&end| (self.added(sink, end), sink, end))
        });
        let (_, sink, end) = tries.min().expect("a sink waits");
        (sink, end)
    }

    /// "the point being the median of the edge's ends and the sink"
    fn place(&self, sink: usize, end: usize) -> Point {
        let at = &self.tree.point;
        median(at[self.tree.parent[end]], at[end], at[sink])
    }

    pub fn added(&self, sink: usize, end: usize) -> i128 {
        self.added_at(sink, end, self.place(sink, end))
    }

    /// P2's l(T_i) - l(T_(i-1)) where the edge from u to v is split at x:
    /// |u - x| + |x - v| + |x - s| - |u - v|.
    pub fn added_at(&self, sink: usize, end: usize, x: Point) -> i128 {
        let at = &self.tree.point;
        let (u, v) = (at[self.tree.parent[end]], at[end]);
        u.distance(x) + x.distance(v) + x.distance(at[sink]) - u.distance(v)
    }

    /// "A split edge hangs as in step 2 of 01, but with the branch point at
    /// that median".
    pub fn split(&mut self, sink: usize, end: usize, new: usize) {
        self.tree.point[new] = self.place(sink, end);
        self.tree.parent[new] = self.tree.parent[end];
        self.tree.parent[end] = new;
        self.tree.parent[sink] = new;
        self.lower_ends.extend([sink, new]);
        self.waiting.retain(|&k| k != sink);
    }
}
