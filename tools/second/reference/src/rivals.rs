//! The trees that no sum of weight × delay is below, the bound of lemma 5.5:
//! over few sinks every shape, and over any number the least sum without
//! joining by weight.

use crate::net::Net;

/// The parents of every legal tree over so many sinks but for the branch points'
/// numbers: each next sink splits one edge of each tree over those before it.
pub fn all(n: usize) -> Vec<Vec<usize>> {
    let mut shapes = vec![vec![0; 2 * n]];
    for sink in 2..=n {
        let new = n + sink - 1;
        let split = |shape: &Vec<usize>| {
            let ends = (1..sink).chain(n + 1..new);
            ends.map(|end| with_edge_split(shape, end, sink, new))
                .collect()
        };
        let all: Vec<Vec<Vec<usize>>> = shapes.iter().map(split).collect();
        shapes = all.concat();
    }
    shapes
}

fn with_edge_split(parent: &[usize], end: usize, sink: usize, new: usize) -> Vec<usize> {
    let mut enlarged = parent.to_vec();
    enlarged[new] = parent[end];
    enlarged[end] = new;
    enlarged[sink] = new;
    enlarged
}

/// The least sum of weight × delay of any legal tree: each pin by a straight
/// wire, and c for each of the fewest branch points, by weight.
pub fn least_delay(net: &Net) -> i128 {
    let straight = net.sinks.iter().map(|sink| {
        let delay = net.wire.delay(net.root, sink.at);
        sink.weight as i128 * delay
    });
    let weights: Vec<i64> = net.sinks.iter().map(|s| s.weight).collect();
    straight.sum::<i128>() + net.branch as i128 * least_branch_points(weights) as i128
}

/// The least sum of weight × branch points above. Two sinks may change places
/// until no heavier one is deeper, and those of one depth lie side by side: so
/// some tree that is best has its sinks from left to right by weight, and
/// under each of its branch points a stretch of them, parted somewhere.
pub fn least_branch_points(mut weights: Vec<i64>) -> i64 {
    weights.sort();
    let n = weights.len();
    let mut least = vec![vec![0; n]; n];
    for length in 2..=n {
        for from in 0..=n - length {
            let to = from + length - 1;
            let parted = (from..to).map(|at| least[from][at] + least[at + 1][to]);
            let under: i64 = weights[from..=to].iter().sum();
            least[from][to] = under + parted.min().expect("two sinks or more");
        }
    }
    least[0][n - 1]
}
