//! The third plan word by word, as 02's request 7 has it: the two vertices of
//! least total weight are joined until one is left. For each join every vertex
//! without a parent is looked at anew, and its weight added up from its sinks.

use crate::answer::{Answer, Refusal};
use crate::insertion::settle;
use crate::net::Net;
use crate::slow;
use crate::tree::{bare, slack, Tree};

pub fn plan(net: &[u8], out: &mut [u8]) -> Answer {
    Answer::of(try_plan(net, out))
}

/// "it ignores need"
fn try_plan(net: &[u8], out: &mut [u8]) -> Result<(i64, u64, i64), Refusal> {
    let net = Net::read(net)?;
    slow::written(&net, planned(&net), out)
}

/// "joins the two vertices of least total weight until one is left", "new ones
/// numbered n+1 upward in order of joining, then settles as in 01". The one that
/// is left hangs on the root.
pub fn planned(net: &Net) -> Tree {
    let n = net.sinks.len();
    let mut tree = bare(net);
    let mut left: Vec<Top> = (1..=n).map(Top::of_sink).collect();
    for new in n + 1..2 * n {
        let two = [(); 2].map(|()| take_least(net, &mut left));
        for joined in &two {
            tree.parent[joined.vertex] = new;
        }
        left.push(Top {
            vertex: new,
            sinks: two.map(|joined| joined.sinks).concat(),
        });
    }
    settle(&mut tree, 1..2 * n);
    tree
}

/// A vertex that has no parent yet, and the sinks at or under it.
struct Top {
    vertex: usize,
    sinks: Vec<usize>,
}

impl Top {
    fn of_sink(k: usize) -> Top {
        Top {
            vertex: k,
            sinks: vec![k],
        }
    }

    fn total_weight(&self, net: &Net) -> i64 {
        self.sinks.iter().map(|&k| net.sinks[k - 1].weight).sum()
    }
}

/// "ties to the lowest vertex numbers"
fn take_least(net: &Net, left: &mut Vec<Top>) -> Top {
    let least = (0..left.len()).min_by_key(|&i| (left[i].total_weight(net), left[i].vertex));
    left.remove(least.expect("two are left"))
}

/// "The sum of weight × delay, delay being a minus slack", over a legal tree.
pub fn weighted_delay(net: &Net, tree: &Tree) -> i128 {
    let delay = |k: usize| net.sinks[k - 1].arrival as i128 - slack(net, tree, k);
    (1..=net.sinks.len())
        .map(|k| net.sinks[k - 1].weight as i128 * delay(k))
        .sum()
}
