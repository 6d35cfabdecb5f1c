//! The short tree in a session: the library's against the references', and
//! against what request 6 says of every one.

use crate::library;
use crate::planners::{SHORT_PLAIN, SHORT_SLOW};
use crate::session::{fill, Planned, Session, GUARD};
use crate::trees;
use second_reference::listing::Listing;
use second_reference::net::Net;
use second_reference::tree::Point;
use second_reference::{short, spanning};

/// Up to so many sinks every spanning tree is measured.
pub const FEW_SINKS: usize = 5;
/// The slow reference takes long on large nets: one case in so many has them.
const LARGE_SLOW: u64 = 2;
/// And a second on the largest: one case in so many.
const LARGEST_SLOW: u64 = 8;
const LARGE: usize = 200;

/// What was found of the library's short trees.
#[derive(Clone, Copy, Debug, Default)]
pub struct Shorts {
    /// Planned by the slow reference too.
    pub slow: u64,
    /// Held to the least spanning tree, and shorter than it.
    pub bounded: u64,
    pub shorter: u64,
    /// In which an edge above a branch point was split.
    pub above_branch_point: u64,
    /// Of nets that the first plan refuses for their need.
    pub unreachable: u64,
}

impl Session {
    /// The short tree with an output of this length, by the library and by each
    /// reference that can.
    pub fn plan_short(&mut self, net: &[u8], length: usize) -> Planned {
        self.count().shorts += 1;
        let mut out = fill(length + GUARD);
        let answer = library::plan_short(net, &mut out[..length]);
        self.count_number(2, answer.number);
        let got = (answer, &out[..]);
        self.compare_with(SHORT_PLAIN, net, got);
        if self.is_in_slow_reach(net) {
            let slow = self.compare_with(SHORT_SLOW, net, got);
            self.shorts.slow += u64::from(slow.answer.number == 0);
        }
        out.truncate(length);
        Planned { answer, out }
    }

    fn is_in_slow_reach(&self, net: &[u8]) -> bool {
        let sinks = Net::read(net).map_or(0, |net| net.sinks.len());
        let one_in = if sinks <= short::MOST_SINKS {
            1
        } else if sinks <= LARGE {
            LARGE_SLOW
        } else {
            LARGEST_SLOW
        };
        self.seed() % one_in == 0
    }

    /// "its wire is at most that of every spanning tree on the root and the
    /// sinks", and every branch point lies in their box, being a median of
    /// medians.
    pub fn check_bounds(&mut self, net: &Net, plan: &Planned) {
        let text = net.text();
        let Ok(listing) = Listing::read(plan.listing(), net) else {
            let what = "the short tree's listing cannot be read";
            return self.expect(false, what, plan.answer, &text, plan.listing());
        };
        let points = spanning::points(net);
        let (wire, least) = (listing.wire as i128, spanning::least(&points));
        self.shorts.bounded += 1;
        self.shorts.shorter += u64::from(wire < least);
        let above = trees::split_above_branch_point(&listing.tree);
        self.shorts.above_branch_point += u64::from(above);
        let what = format!("a spanning tree of {least} is shorter");
        self.expect(wire <= least, &what, plan.answer, &text, plan.listing());
        let what = "a branch point leaves the box of the root and the sinks";
        let within = is_in_box(&points, &listing.tree.point);
        self.expect(within, what, plan.answer, &text, plan.listing());
        if net.sinks.len() <= FEW_SINKS {
            self.check_every_spanning_tree(net, wire, least);
        }
    }

    /// Prim's is the least of all, and the short tree is no longer than any.
    fn check_every_spanning_tree(&mut self, net: &Net, wire: i128, least: i128) {
        let points = spanning::points(net);
        let mut found = false;
        for edges in spanning::all(points.len()) {
            self.count().spanning += 1;
            let length = spanning::length(&points, &edges);
            found |= length == least;
            if length < least || length < wire {
                let what = format!(
                    "the spanning tree {edges:?} of {length} is shorter than Prim's of {least} \
                     or the short tree of {wire}"
                );
                self.disagree(&what, &[("net", &net.text())]);
            }
        }
        if !found {
            let what = format!("no spanning tree has Prim's length, {least}");
            self.disagree(&what, &[("net", &net.text())]);
        }
    }
}

fn is_in_box(of: &[Point], points: &[Point]) -> bool {
    let within = |by: fn(&Point) -> i128| {
        let ends = of.iter().map(by);
        let (low, high) = (ends.clone().min(), ends.max());
        points
            .iter()
            .all(|p| low <= Some(by(p)) && Some(by(p)) <= high)
    };
    within(|p| p.x) && within(|p| p.y)
}

#[cfg(test)]
mod tests {
    use super::*;

    #[test]
    fn a_point_outside_the_box_is_seen() {
        let of = [Point::new(0, 3), Point::new(-4, 5)];
        let inside = |x, y| is_in_box(&of, &[of[0], Point::new(x, y)]);
        for (x, y) in [(0, 3), (-4, 5), (-4, 3), (0, 5), (-2, 4)] {
            assert!(inside(x, y));
        }
        for (x, y) in [(1, 4), (-5, 4), (-2, 2), (-2, 6)] {
            assert!(!inside(x, y));
        }
    }
}
