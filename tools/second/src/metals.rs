//! Two metal directions: factors that differ, and nets that get them.

use crate::near;
use crate::nets;
use crate::pins;
use crate::random::Random;
use crate::ranges::{self, Ranges};
use crate::shapes::Make;
use crate::weights;
use second_reference::net::{Factors, Net, WIRE};
use second_reference::tree::Point;

/// Two that differ, either the dearer: small, as chips have them, anywhere in
/// the range, next to each other, or as far apart as can be.
pub fn factors(r: &mut Random) -> Factors {
    let most = r.pick(&[3, 400, WIRE.1]);
    let low = r.between(WIRE.0, most - 1);
    let high = r.between(low + 1, most);
    let (low, high) = r.pick(&[(low, high), (low, high), (low, low + 1), WIRE]);
    either_dearer(r, low, high)
}

/// As far apart as the range allows, either the dearer.
pub fn far_apart(r: &mut Random) -> Factors {
    either_dearer(r, WIRE.0, WIRE.1)
}

fn either_dearer(r: &mut Random, low: i64, high: i64) -> Factors {
    let wire = Factors::new(low, high);
    r.pick(&[wire, wire.exchanged()])
}

/// The net with these factors. Each sink keeps its own slack, and so what ties
/// goes on to tie, except where its required arrival would leave the range.
pub fn slacks_kept(ranges: &Ranges, mut net: Net, wire: Factors) -> Net {
    let (least, most) = ranges.arrival;
    for sink in &mut net.sinks {
        let more = wire.delay(net.root, sink.at) - net.wire.delay(net.root, sink.at);
        sink.arrival = (sink.arrival + more as i64).clamp(least, most);
    }
    Net { wire, ..net }
}

/// Mostly with other factors, by which own slacks stay or required arrivals do.
pub fn any(r: &mut Random, ranges: &Ranges, net: Net) -> Net {
    let wire = factors(r);
    match r.index(8) {
        0 => net,
        1..=5 => slacks_kept(ranges, net, wire),
        _ => Net { wire, ..net },
    }
}

/// A net of the shape in any ranges.
pub fn drawn(r: &mut Random, make: Make, n: usize) -> Net {
    let ranges = ranges::any(r);
    drawn_in(r, ranges, make, n)
}

/// A net of the shape, mostly with other factors and weights than the shape
/// draws, which are equal.
pub fn drawn_in(r: &mut Random, ranges: &Ranges, make: Make, n: usize) -> Net {
    let net = make(r, ranges, n);
    let net = any(r, ranges, net);
    weights::any(r, net)
}

/// A net of the shape with factors that differ.
pub fn differing(r: &mut Random, ranges: &Ranges, make: Make, n: usize) -> Net {
    let net = make(r, ranges, n);
    let wire = factors(r);
    slacks_kept(ranges, net, wire)
}

pub fn common(r: &mut Random, ranges: &Ranges, n: usize) -> Net {
    differing(r, ranges, nets::common, n)
}

pub fn spread_out(r: &mut Random, ranges: &Ranges, n: usize) -> Net {
    differing(r, ranges, near::spread_out, n)
}

/// Pins v×k across or h×k upward from the root, due at few different times: own
/// slacks tie only by the factors.
pub fn balanced(r: &mut Random, ranges: &Ranges, n: usize) -> Net {
    let mut net = nets::tied(r, ranges, n);
    let (h, v) = r.pick(&[(1, 2), (2, 1), (2, 3), (3, 2), (1, 7), (7, 1)]);
    net.wire = Factors::new(h, v);
    for sink in &mut net.sinks {
        let k = r.between(-2, 2);
        let (x, y) = r.pick(&[(v * k, 0), (0, h * k)]);
        sink.at = pins::offset(net.root, x, y);
        sink.arrival = net.branch * r.between(0, 2);
    }
    net
}

/// The net with x and y exchanged, and its factors with them.
pub fn mirrored(net: &Net) -> Net {
    let mut other = net.clone();
    other.root = exchanged(net.root);
    for sink in &mut other.sinks {
        sink.at = exchanged(sink.at);
    }
    other.wire = net.wire.exchanged();
    other
}

pub fn exchanged(p: Point) -> Point {
    Point { x: p.y, y: p.x }
}

#[cfg(test)]
mod tests {
    use super::*;
    use crate::ranges::{MICROMETRES, NANOMETRES};
    use crate::shapes::SHAPES;

    /// The slack that is kept is kept by every shape, and every net is in the
    /// format.
    #[test]
    fn nets_with_other_factors() {
        let mut r = Random::new(4);
        let all = SHAPES
            .into_iter()
            .flat_map(|s| [1, 2, 9, 40].map(|n| (s, n)));
        for ((name, make), n) in all {
            for ranges in [&NANOMETRES, &MICROMETRES] {
                let even = make(&mut r, ranges, n);
                let net = slacks_kept(ranges, even.clone(), factors(&mut r));
                assert_ne!(net.wire.horizontal, net.wire.vertical);
                if name != "extreme" {
                    assert_eq!(net.own_slacks(), even.own_slacks(), "{name}");
                }
                assert_eq!(Net::read(&net.text()), Ok(net));
            }
        }
    }

    #[test]
    fn balanced_nets_tie() {
        let mut r = Random::new(5);
        for _ in 0..50 {
            let net = balanced(&mut r, &NANOMETRES, 40);
            let mut own = net.own_slacks();
            own.sort();
            own.dedup();
            assert!(own.len() <= 9, "{own:?}");
            assert_eq!(Net::read(&net.text()), Ok(net));
        }
    }
}
