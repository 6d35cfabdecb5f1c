//! Where roots and pins stand: in the range of positions, and the pins within
//! reach of the root or at a chosen distance from it.

use crate::random::Random;
use crate::ranges::{Ranges, NANOMETRES};
use second_reference::net::{COORDINATE, PIN_LIMIT};
use second_reference::tree::Point;

/// Within the spread of the origin in each coordinate.
pub fn point(r: &mut Random, spread: i64) -> Point {
    Point::new(r.between(-spread, spread), r.between(-spread, spread))
}

/// About the origin or anywhere in the range.
pub fn root(r: &mut Random, ranges: &Ranges, spread: i64) -> Point {
    let spread = r.pick(&[spread, ranges.coordinate]);
    point(r, spread)
}

/// At most so far from the root, at times just so far.
pub fn about(r: &mut Random, ranges: &Ranges, root: Point, reach: i64) -> Point {
    if r.once_in(16) {
        return at_distance(r, ranges, root, reach);
    }
    // The points within reach fill a square that stands on its corner.
    let (u, v) = (r.between(-reach, reach), r.between(-reach, reach));
    clipped(ranges, offset(root, (u + v) / 2, (u - v) / 2))
}

/// x,y from the root.
pub fn offset(root: Point, x: i64, y: i64) -> Point {
    Point::new(root.x as i64 + x, root.y as i64 + y)
}

/// The nearest point of the range, so no farther from any root in it.
fn clipped(ranges: &Ranges, at: Point) -> Point {
    let end = ranges.coordinate as i128;
    Point {
        x: at.x.clamp(-end, end),
        y: at.y.clamp(-end, end),
    }
}

pub fn in_range(at: Point) -> bool {
    clipped(&NANOMETRES, at) == at
}

/// Just so far from the root, by x or y alone or by both. Every distance up to
/// the range's width has room.
pub fn at_distance(r: &mut Random, ranges: &Ranges, root: Point, distance: i64) -> Point {
    let room = |from: i128| room(ranges, from);
    let least = (distance - room(root.y)).max(0);
    let most = distance.min(room(root.x));
    let x = match r.index(4) {
        0 => least,
        1 => most,
        _ => r.between(least, most),
    };
    let mut moved = |from: i128, by: i64| moved(r, ranges, from, by);
    Point::new(moved(root.x, x), moved(root.y, distance - x))
}

/// How far the farther end of the range is.
fn room(ranges: &Ranges, from: i128) -> i64 {
    ranges.coordinate + from.abs() as i64
}

/// By so much in a direction that does not leave the range.
fn moved(r: &mut Random, ranges: &Ranges, from: i128, by: i64) -> i64 {
    let mut ends = vec![from as i64 - by, from as i64 + by];
    ends.retain(|v| v.abs() <= ranges.coordinate);
    r.pick(&ends)
}

/// Too far from the root for any net.
pub fn beyond(r: &mut Random, root: Point) -> Point {
    let any = r.between(PIN_LIMIT + 1, 2 * COORDINATE);
    let distance = r.pick(&[PIN_LIMIT + 1, PIN_LIMIT + 2, any]);
    at_distance(r, &NANOMETRES, root, distance)
}

/// x,y and its three quarter turns about the origin.
pub fn turns(x: i64, y: i64) -> [(i64, i64); 4] {
    [(x, y), (-y, x), (-x, -y), (y, -x)]
}
