//! Seeded nets by how their pins stand to each other, which is all that decides
//! a short tree. Their times are any.

use crate::nets::shuffle;
use crate::pins::{self, point};
use crate::random::Random;
use crate::ranges::Ranges;
use crate::shapes::Make;
use second_reference::net::{Factors, Net, Sink, WEIGHT};
use second_reference::tree::Point;

pub const STREETS: [(&str, Make); 7] = [
    ("grid", grid),
    ("line", line),
    ("comb", comb),
    ("columns", columns),
    ("clusters", clusters),
    ("ring", ring),
    ("stairs", stairs),
];

/// A net of pins so far from the root, in their order or in any, and turned in
/// one of the four directions.
fn net(r: &mut Random, ranges: &Ranges, mut away: Vec<(i64, i64)>) -> Net {
    if r.once_in(2) {
        shuffle(r, &mut away);
    }
    let root = point(r, ranges.coordinate - ranges.pin_limit);
    let wire = r.between(1, 400);
    let late = 1000 * ranges.micrometre * wire;
    let turn = r.index(4);
    let sinks = away.into_iter().map(|(x, y)| {
        let (x, y) = pins::turns(x, y)[turn];
        Sink {
            at: pins::offset(root, x, y),
            arrival: r.between(-late, 3 * late),
            weight: WEIGHT.0,
        }
    });
    Net {
        root,
        sinks: sinks.collect(),
        branch: r.between(1, 50_000 * ranges.micrometre),
        wire: Factors::equal(wire),
        need: ranges.low_need,
    }
}

/// A unit of length: one, or such that so many lie within reach of the root.
fn unit(r: &mut Random, ranges: &Ranges, many: usize) -> i64 {
    r.pick(&[1, 1, ranges.pin_limit / (many as i64 + 1)])
}

/// On few places in rows and columns about the root, so that sinks and lower
/// ends tie and pins coincide.
pub fn grid(r: &mut Random, ranges: &Ranges, n: usize) -> Net {
    let side = r.between(0, 5);
    let unit = unit(r, ranges, 10);
    let places = (0..n).map(|_| {
        let Point { x, y } = point(r, side);
        (unit * x as i64, unit * y as i64)
    });
    let places = places.collect();
    net(r, ranges, places)
}

/// On one line, on both sides of the root or on one, which may stand beside it.
pub fn line(r: &mut Random, ranges: &Ranges, n: usize) -> Net {
    let unit = unit(r, ranges, n + 3);
    let low = r.pick(&[0, n as i64 / 2]);
    let beside = r.between(0, 2) * unit;
    let places = (1..=n as i64).map(|i| ((i - low) * unit, beside));
    net(r, ranges, places.collect())
}

/// A row of pins away from the root, and one of each two at so long a tooth's
/// end.
pub fn comb(r: &mut Random, ranges: &Ranges, n: usize) -> Net {
    let unit = unit(r, ranges, 3 * n);
    let tooth = r.between(1, 3) * unit;
    let places = (0..n as i64).map(|i| (i / 2 * 2 * unit, i % 2 * tooth));
    net(r, ranges, places.collect())
}

/// Two columns of pins, as of two rows of cells, the root between them or off
/// their ends.
pub fn columns(r: &mut Random, ranges: &Ranges, n: usize) -> Net {
    let unit = unit(r, ranges, 2 * n + 2);
    let (left, right) = (r.between(-4, 0) * unit, r.between(1, 4) * unit);
    let low = r.pick(&[0, n as i64 / 4]);
    let places = (0..n as i64).map(|i| ([left, right][i as usize % 2], (i / 2 - low) * unit));
    net(r, ranges, places.collect())
}

/// A few dense heaps far from each other.
pub fn clusters(r: &mut Random, ranges: &Ranges, n: usize) -> Net {
    let far = ranges.pin_limit / 3;
    let heaps: Vec<Point> = (0..r.between(2, 6)).map(|_| point(r, far)).collect();
    let width = r.pick(&[2, 10 * ranges.micrometre, far / 10]);
    let places = (0..n).map(|_| {
        let (heap, by) = (r.pick(&heaps), point(r, width));
        ((heap.x + by.x) as i64, (heap.y + by.y) as i64)
    });
    let places = places.collect();
    net(r, ranges, places)
}

/// All just as far from the root, in all directions: first every sink ties.
pub fn ring(r: &mut Random, ranges: &Ranges, n: usize) -> Net {
    let unit = unit(r, ranges, n);
    let far = n as i64 * unit;
    let places = (0..n as i64).map(|i| {
        let x = i / 4 * 4 * unit;
        pins::turns(x, far - x)[i as usize % 4]
    });
    net(r, ranges, places.collect())
}

/// A quarter of such a ring: each next pin is nearest to what the last one made.
pub fn stairs(r: &mut Random, ranges: &Ranges, n: usize) -> Net {
    let unit = unit(r, ranges, n);
    let far = n as i64 * unit;
    let places = (0..n as i64).map(|i| (i * unit, far - i * unit));
    net(r, ranges, places.collect())
}

/// Any of these.
pub fn any(r: &mut Random, ranges: &Ranges, n: usize) -> Net {
    let (_, make) = r.pick(&STREETS);
    make(r, ranges, n)
}

#[cfg(test)]
mod tests {
    use super::*;
    use crate::ranges::{MICROMETRES, NANOMETRES};

    #[test]
    fn all_are_in_the_format() {
        let mut r = Random::new(6);
        for (name, make) in STREETS {
            for n in [1, 2, 3, 8, 40, 511, 512] {
                for ranges in [&NANOMETRES, &MICROMETRES].repeat(4) {
                    let net = make(&mut r, ranges, n);
                    assert_eq!(net.sinks.len(), n);
                    assert_eq!(Net::read(&net.text()), Ok(net), "{name}");
                }
            }
        }
    }
}
