//! Seeded nets of every character, all pins within the limit. Each shape has
//! equal factors and weights of 1; `metals` and `weights` give it others.

use crate::metals;
use crate::near;
use crate::pins::{self, point};
use crate::random::Random;
use crate::ranges::{self, Ranges};
use crate::weights;
use second_reference::net::{Factors, Net, Sink, SINKS, WEIGHT, WIRE};
use second_reference::tree::Point;

/// A net as chips have them: pins within a few millimetres, times to match.
pub fn common(r: &mut Random, ranges: &Ranges, n: usize) -> Net {
    let micrometre = ranges.micrometre;
    let reach = r.pick(&[
        100,
        4_000 * micrometre,
        20_000 * micrometre,
        ranges.pin_limit,
    ]);
    let wire = r.between(1, 400);
    let late = reach * wire;
    let root = pins::root(r, ranges, reach);
    let sinks = (0..n)
        .map(|_| Sink {
            at: pins::about(r, ranges, root, reach),
            arrival: r.between(-late, 3 * late),
            weight: WEIGHT.0,
        })
        .collect();
    Net {
        root,
        branch: r.between(1, 50_000 * micrometre),
        wire: Factors::equal(wire),
        need: ranges.low_need,
        sinks,
    }
}

/// Few different own slacks, from different points and arrivals.
pub fn tied(r: &mut Random, ranges: &Ranges, n: usize) -> Net {
    let spread = r.between(0, 3);
    let wire = r.between(1, 2);
    let root = point(r, 2);
    let kinds = r.between(0, 3);
    let branch = r.between(1, 4);
    let sinks = (0..n)
        .map(|_| (point(r, spread), branch * r.between(0, kinds)))
        .collect();
    of_slacks(ranges, root, branch, Factors::equal(wire), sinks)
}

/// A net of these points and own slacks.
pub fn of_slacks(
    ranges: &Ranges,
    root: Point,
    branch: i64,
    wire: Factors,
    sinks: Vec<(Point, i64)>,
) -> Net {
    let sinks = sinks
        .into_iter()
        .map(|(at, own)| Sink {
            at,
            arrival: own + wire.delay(root, at) as i64,
            weight: WEIGHT.0,
        })
        .collect();
    Net {
        root,
        branch,
        wire,
        need: ranges.low_need,
        sinks,
    }
}

/// Pins on a few spots, the root's own among them.
pub fn coincident(r: &mut Random, ranges: &Ranges, n: usize) -> Net {
    let mut net = common(r, ranges, n);
    let near = pins::about(r, ranges, net.root, 9);
    let far = pins::about(r, ranges, net.root, ranges.pin_limit);
    let same_time = r.once_in(2);
    for sink in &mut net.sinks {
        sink.at = r.pick(&[net.root, near, far]);
        if same_time {
            sink.arrival = r.between(-1, 1);
        }
    }
    net
}

/// All pins in one corner of the range.
pub fn cornered(r: &mut Random, ranges: &Ranges, n: usize) -> Net {
    let mut net = common(r, ranges, n);
    let ends = [-ranges.coordinate, ranges.coordinate];
    let corner = Point::new(r.pick(&ends), r.pick(&ends));
    net.root = pins::about(r, ranges, corner, 100);
    for sink in &mut net.sinks {
        sink.at = pins::about(r, ranges, net.root, 100);
    }
    net
}

/// Each number at an end of its range, next to it, or anywhere in it.
pub fn extreme(r: &mut Random, ranges: &Ranges, n: usize) -> Net {
    let last = ranges.coordinate;
    let root = Point::new(end(r, -last, last), end(r, -last, last));
    let branch = end(r, ranges.branch.0, ranges.branch.1);
    let wire = end(r, WIRE.0, WIRE.1);
    let sinks = (0..n).map(|_| extreme_sink(r, ranges, root)).collect();
    Net {
        root,
        branch,
        wire: Factors::equal(wire),
        need: ranges.low_need,
        sinks,
    }
}

/// What x leaves of the limit, y may use.
fn extreme_sink(r: &mut Random, ranges: &Ranges, root: Point) -> Sink {
    let reach = end(r, 0, ranges.pin_limit);
    let x = end_about(r, ranges, root.x as i64, reach);
    let left = ranges.pin_limit - (x - root.x as i64).abs();
    let y = end_about(r, ranges, root.y as i64, left);
    Sink {
        at: Point::new(x, y),
        arrival: end(r, ranges.arrival.0, ranges.arrival.1),
        weight: WEIGHT.0,
    }
}

fn end_about(r: &mut Random, ranges: &Ranges, from: i64, reach: i64) -> i64 {
    let (low, high) = (from - reach, from + reach);
    end(r, low.max(-ranges.coordinate), high.min(ranges.coordinate))
}

fn end(r: &mut Random, low: i64, high: i64) -> i64 {
    match r.index(9) {
        0..=2 => low,
        3..=5 => high,
        6 => high.min(low + 1),
        7 => low.max(high - 1),
        _ => r.between(low, high),
    }
}

/// The longest text: every number in its longest spelling.
pub fn longest(ranges: &Ranges) -> Net {
    let corner = Point::new(-ranges.coordinate, -ranges.coordinate);
    let sink = Sink {
        at: corner,
        arrival: ranges.arrival.0,
        weight: WEIGHT.1,
    };
    Net {
        root: corner,
        branch: ranges.branch.1,
        wire: Factors::equal(WIRE.1),
        need: ranges.low_need,
        sinks: vec![sink; SINKS.1 as usize],
    }
}

/// Plans that are one long path, in either of two ways.
pub fn path_like(r: &mut Random, ranges: &Ranges, n: usize) -> Net {
    if r.once_in(2) {
        rising(r, ranges, n)
    } else {
        near::deep(r, ranges, n)
    }
}

/// Own slacks rising by exactly c, so that each sink splits the one before.
pub fn rising(r: &mut Random, ranges: &Ranges, n: usize) -> Net {
    let mut rank: Vec<i64> = (0..n as i64).collect();
    if r.once_in(2) {
        shuffle(r, &mut rank);
    }
    let branch = r.between(1, 1000 * ranges.micrometre);
    let own = rank.iter().map(|i| i * branch).collect();
    with_own_slacks(r, ranges, branch, own)
}

/// One urgent sink, the others with time to spare: nearly all edges tie.
pub fn spare(r: &mut Random, ranges: &Ranges, n: usize) -> Net {
    let branch = r.between(1, 1000 * ranges.micrometre);
    let mut own = vec![branch * (n as i64 + 2); n];
    own[n - 1] = 0;
    own[0] = branch * (n as i64 + 1);
    with_own_slacks(r, ranges, branch, own)
}

/// Own slacks that fall as the numbers rise, all within one branch cost: the
/// order turns the sinks round, and few edges keep the worst slack.
pub fn falling(r: &mut Random, ranges: &Ranges, n: usize) -> Net {
    let branch = r.between(n as i64, 100 * n as i64);
    let own = (0..n as i64).rev().collect();
    with_own_slacks(r, ranges, branch, own)
}

fn with_own_slacks(r: &mut Random, ranges: &Ranges, branch: i64, own: Vec<i64>) -> Net {
    let mut net = common(r, ranges, own.len());
    net.branch = branch;
    for (sink, own) in net.sinks.iter_mut().zip(own) {
        sink.arrival = own + net.wire.delay(net.root, sink.at) as i64;
    }
    net
}

pub fn shuffle<T>(r: &mut Random, list: &mut [T]) {
    for i in (1..list.len()).rev() {
        list.swap(i, r.index(i + 1));
    }
}

/// Any of these, mostly with factors and weights that differ.
pub fn any(r: &mut Random, n: usize) -> Net {
    let ranges = ranges::any(r);
    let net = even(r, ranges, n);
    let net = metals::any(r, ranges, net);
    weights::any(r, net)
}

fn even(r: &mut Random, ranges: &Ranges, n: usize) -> Net {
    match r.index(8) {
        0 => common(r, ranges, n),
        1 => tied(r, ranges, n),
        2 => coincident(r, ranges, n),
        3 => extreme(r, ranges, n),
        4 => path_like(r, ranges, n),
        5 => cornered(r, ranges, n),
        _ => near::any(r, ranges, n),
    }
}

/// Moves one pin beyond the limit, and tells its line.
pub fn with_far_pin(r: &mut Random, mut net: Net) -> (Net, usize) {
    let i = r.index(net.sinks.len());
    net.sinks[i].at = pins::beyond(r, net.root);
    (net, line_of(i))
}

/// The line of a sink, counted from 0.
pub fn line_of(sink: usize) -> usize {
    sink + 6
}
