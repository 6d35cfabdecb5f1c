//! Plan in request 3's order of work: "gather the smallest slack under each
//! vertex from the leaves up, then try the edges from those". All numbers are
//! gathered anew for each sink.

use crate::answer::Answer;
use crate::insertion::{self, Insertion};
use crate::net::Net;
use crate::slow;
use crate::tree::{branch_points_above, children, leaves_up, path, slack, Tree};

pub fn plan(net: &[u8], out: &mut [u8]) -> Answer {
    slow::plan_by(planned, net, out)
}

pub fn planned(net: &Net) -> Tree {
    insertion::planned(net, |i| gather(i).best_end())
}

/// The numbers from which one sink's edges are tried.
pub struct Gathered<'a> {
    insertion: &'a Insertion<'a>,
    /// By vertex; none for those that are not in the tree so far.
    under: Vec<Option<i128>>,
}

/// A sink has its slack in the tree so far, any other vertex the least of its
/// children's numbers.
pub fn gather<'a>(i: &'a Insertion<'a>) -> Gathered<'a> {
    let mut under = vec![None; i.tree.parent.len()];
    for &k in i.inserted {
        under[k] = Some(slack(i.net, i.tree, k));
    }
    let children = children(i.tree, i.lower_ends());
    for v in leaves_up(&children) {
        if under[v].is_none() {
            let numbers = children[v].iter().map(|&k| under[k].expect("gathered"));
            under[v] = numbers.min();
        }
    }
    Gathered {
        insertion: i,
        under,
    }
}

impl Gathered<'_> {
    /// The smallest slack at or under a vertex of the tree so far.
    pub fn under(&self, v: usize) -> i128 {
        self.under[v].expect("a vertex of the tree")
    }

    /// The worst slack of the tree enlarged above v: that so far, that of the
    /// sinks which get one branch point more, or the new sink's own.
    pub fn tried(&self, v: usize) -> i128 {
        let i = self.insertion;
        let c = i.net.branch as i128;
        let below = self.under(v) - c;
        let own = i.net.own_slack(i.sink) - c * (branch_points_above(i.tree, v) + 1);
        self.under(0).min(below).min(own)
    }

    pub fn best_end(&self) -> usize {
        self.insertion.best_end(|v| self.tried(v))
    }
}

/// How many numbers were compared with their definitions.
#[derive(Clone, Copy, Debug, Default)]
pub struct Checked {
    pub vertices: u64,
    pub edges: u64,
}

/// Compares the numbers of every insertion of a plan with their definitions,
/// or tells the first that differs.
pub fn check(net: &Net) -> Result<Checked, String> {
    let mut checked = Checked::default();
    let mut first = None;
    insertion::planned(net, |i| {
        let gathered = gather(i);
        if first.is_none() {
            first = gathered.mismatch(&mut checked);
        }
        gathered.best_end()
    });
    first.map_or(Ok(checked), Err)
}

impl Gathered<'_> {
    fn mismatch(&self, checked: &mut Checked) -> Option<String> {
        let i = self.insertion;
        for v in i.lower_ends().chain([0]) {
            checked.vertices += 1;
            let (got, least) = (self.under(v), least_under(i, v));
            if got != least {
                return Some(format!(
                    "for sink {} the number gathered at vertex {v} is {got}, \
                     the least slack at or under it {least}",
                    i.sink
                ));
            }
        }
        for v in i.lower_ends() {
            checked.edges += 1;
            let (got, worst) = (self.tried(v), i.measured(v));
            if got != worst {
                return Some(format!(
                    "for sink {} the number of the edge above vertex {v} is {got}, \
                     the enlarged tree's worst slack {worst}",
                    i.sink
                ));
            }
        }
        None
    }
}

/// The least slack of the sinks whose path to the root has the vertex on it.
fn least_under(i: &Insertion, v: usize) -> i128 {
    i.inserted
        .iter()
        .filter(|&&k| path(i.tree, k).any(|u| u == v))
        .map(|&k| slack(i.net, i.tree, k))
        .min()
        .expect("a sink is under every vertex")
}
