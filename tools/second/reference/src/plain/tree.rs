//! Legality, measures and settling by child lists.

use super::read::{Net, Point};
use crate::answer::Refusal;

pub fn distance(a: Point, b: Point) -> i64 {
    (a.0 - b.0).abs() + (a.1 - b.1).abs()
}

pub fn wire(parent: &[usize], points: &[Point]) -> i64 {
    (1..parent.len())
        .map(|v| distance(points[v], points[parent[v]]))
        .sum()
}

/// The vertices from the root down, each after its parent; refusal 9 or 10 if
/// the parents make no legal tree.
pub fn top_down(n: usize, parent: &[usize]) -> Result<Vec<usize>, Refusal> {
    let refuse = |number, line| {
        Err(Refusal {
            number,
            text: 2,
            line,
        })
    };
    let mut count = vec![0usize; 2 * n];
    let mut children = vec![[0usize; 2]; 2 * n];
    for (v, &p) in parent.iter().enumerate().skip(1) {
        if count[p] < 2 {
            children[p][count[p]] = v;
        }
        count[p] += 1;
    }
    if count[0] != 1 {
        return refuse(9, 0);
    }
    if let Some(v) = (n + 1..2 * n).find(|&v| count[v] != 2) {
        return refuse(9, v + 3);
    }
    let order = below(&children, children[0][0]);
    if order.len() < 2 * n - 1 {
        let mut reached = vec![false; 2 * n];
        for &v in &order {
            reached[v] = true;
        }
        let lost = (1..2 * n)
            .find(|&v| !reached[v])
            .expect("one is not reached");
        return refuse(10, lost + 3);
    }
    Ok(order)
}

fn below(children: &[[usize; 2]], top: usize) -> Vec<usize> {
    let mut order = Vec::with_capacity(children.len());
    order.push(top);
    let mut next = 0;
    while next < order.len() {
        let [a, b] = children[order[next]];
        if a != 0 {
            order.push(a);
            order.push(b);
        }
        next += 1;
    }
    order
}

/// Delay to each vertex from the root down, then the least slack.
pub fn worst_slack(net: &Net, parent: &[usize], points: &[Point], order: &[usize]) -> i64 {
    let n = net.sinks();
    let mut delay = vec![0i64; 2 * n];
    let mut worst = i64::MAX;
    for &v in order {
        let p = parent[v];
        let branch = if p == 0 { 0 } else { net.branch };
        let edge = net.wire.delay(points[v], points[p]);
        delay[v] = delay[p] + edge + branch;
        if v <= n {
            worst = worst.min(net.arrivals[v] - delay[v]);
        }
    }
    worst
}

fn median(a: i64, b: i64, c: i64) -> i64 {
    a.min(b).max(a.max(b).min(c))
}

pub fn median_of(a: Point, b: Point, c: Point) -> Point {
    (median(a.0, b.0, c.0), median(a.1, b.1, c.1))
}

/// Positions of all vertices, each branch point settled after its children.
pub fn settle(net: &Net, parent: &[usize]) -> Vec<Point> {
    let n = net.sinks();
    let root = net.points[0];
    let mut points = net.points.clone();
    points.resize(2 * n, root);
    let order = top_down(n, parent).expect("a grown tree is legal");
    let mut first: Vec<Option<Point>> = vec![None; 2 * n];
    for &v in order.iter().rev() {
        // The second child to come moves the parent, which then comes later.
        let (at, p) = (points[v], parent[v]);
        match first[p] {
            None => first[p] = Some(at),
            Some(other) => points[p] = median_of(root, at, other),
        }
    }
    points
}
