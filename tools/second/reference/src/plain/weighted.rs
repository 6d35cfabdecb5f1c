//! The third plan. Joined vertices come in rising order of weight, so the two
//! lightest stand at the fronts of two queues.

use super::read::{Net, Point};
use super::tree::median_of;

pub struct Joined {
    pub parent: Vec<usize>,
    pub points: Vec<Point>,
}

pub fn join(net: &Net) -> Joined {
    let n = net.sinks();
    let mut parent = vec![0; 2 * n];
    let mut points = net.points.clone();
    let mut queues = Queues::new(net);
    for new in n + 1..2 * n {
        let (one, two) = (queues.next(), queues.next());
        parent[one.vertex] = new;
        parent[two.vertex] = new;
        // A child's number is below its parent's, so both have settled.
        points.push(median_of(points[0], points[one.vertex], points[two.vertex]));
        queues.joined.push(Weighed {
            weight: one.weight + two.weight,
            vertex: new,
        });
    }
    Joined { parent, points }
}

/// From the root down: each vertex comes after its parent, whose number is
/// higher.
pub fn top_down(n: usize) -> Vec<usize> {
    (1..2 * n).rev().collect()
}

/// Ordered by weight, then by number.
#[derive(Clone, Copy, PartialEq, Eq, PartialOrd, Ord)]
struct Weighed {
    weight: i64,
    vertex: usize,
}

struct Queues {
    sinks: Vec<Weighed>,
    joined: Vec<Weighed>,
    /// How many have left each.
    sinks_gone: usize,
    joined_gone: usize,
}

impl Queues {
    fn new(net: &Net) -> Queues {
        let n = net.sinks();
        let weighed = |vertex| Weighed {
            weight: net.weights[vertex],
            vertex,
        };
        let mut sinks: Vec<Weighed> = (1..=n).map(weighed).collect();
        sinks.sort_unstable();
        Queues {
            sinks,
            joined: Vec::with_capacity(n),
            sinks_gone: 0,
            joined_gone: 0,
        }
    }

    /// The first by weight and number. A sink goes before a joined vertex of its
    /// weight.
    fn next(&mut self) -> Weighed {
        let joined = self.joined.get(self.joined_gone);
        match (self.sinks.get(self.sinks_gone), joined) {
            (Some(sink), Some(joined)) if joined.weight < sink.weight => {
                self.joined_gone += 1;
                *joined
            }
            (Some(sink), _) => {
                self.sinks_gone += 1;
                *sink
            }
            (None, joined) => {
                self.joined_gone += 1;
                *joined.expect("two are left")
            }
        }
    }
}
