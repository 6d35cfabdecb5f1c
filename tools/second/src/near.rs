//! Seeded nets with many tied edges, so that nearness decides.

use crate::nets::{of_slacks, shuffle};
use crate::pins::{self, point};
use crate::random::Random;
use crate::ranges::Ranges;
use second_reference::net::{Factors, Net};
use second_reference::tree::Point;

/// A net of these points and own slacks, about the root.
fn net(r: &mut Random, ranges: &Ranges, root: Point, branch: i64, sinks: Vec<(Point, i64)>) -> Net {
    let wire = Factors::equal(r.between(1, 400));
    of_slacks(ranges, root, branch, wire, sinks)
}

/// A net of these points and own slacks that leave many edges tied.
fn with_ties(r: &mut Random, ranges: &Ranges, root: Point, points: Vec<Point>) -> Net {
    let branch = r.between(1, 1000 * ranges.micrometre);
    let own = tying_slacks(r, branch, points.len());
    net(r, ranges, root, branch, zip(points, own))
}

fn tying_slacks(r: &mut Random, branch: i64, n: usize) -> Vec<i64> {
    match r.index(4) {
        0 => vec![0; n],
        1 => {
            let most = r.pick(&[1, 3, n as i64]);
            (0..n).map(|_| branch * r.between(0, most)).collect()
        }
        2 => spare_slacks(branch, n),
        // The order of insertion is another than the numbers'.
        _ => {
            let mut own = spare_slacks(branch, n);
            own.iter_mut().for_each(|a| *a += r.between(0, branch));
            own
        }
    }
}

/// The last sink is urgent, the others have time to spare for any depth.
fn spare_slacks(branch: i64, n: usize) -> Vec<i64> {
    let mut own = vec![branch * (n as i64 + 2); n];
    own[n - 1] = 0;
    own
}

fn zip(points: Vec<Point>, own: Vec<i64>) -> Vec<(Point, i64)> {
    points.into_iter().zip(own).collect()
}

/// Pins on few spots, the root's at times among them.
pub fn few_spots(r: &mut Random, ranges: &Ranges, n: usize) -> Net {
    let reach = r.pick(&[2, 10, 2000 * ranges.micrometre, ranges.pin_limit]);
    let root = pins::root(r, ranges, reach);
    let mut spots: Vec<Point> = (0..r.between(1, 6))
        .map(|_| pins::about(r, ranges, root, reach))
        .collect();
    if r.once_in(2) {
        spots[0] = root;
    }
    let points = (0..n).map(|_| r.pick(&spots)).collect();
    with_ties(r, ranges, root, points)
}

/// All pins on one spot with the same own slack, so that numbers decide.
pub fn one_spot(r: &mut Random, ranges: &Ranges, n: usize) -> Net {
    let near = 1000 * ranges.micrometre;
    let (root, spot) = (point(r, near), point(r, near));
    let branch = r.between(1, near);
    net(r, ranges, root, branch, vec![(spot, 0); n])
}

/// One long path: all pins on one spot and time to spare, so that sink 1 is
/// split again and again.
pub fn deep(r: &mut Random, ranges: &Ranges, n: usize) -> Net {
    let near = 1000 * ranges.micrometre;
    let (root, spot) = (point(r, near), point(r, near));
    let branch = r.between(1, near);
    let own = spare_slacks(branch, n);
    net(r, ranges, root, branch, zip(vec![spot; n], own))
}

/// Points anywhere within reach, so that one of two tied sinks is nearer.
pub fn spread_out(r: &mut Random, ranges: &Ranges, n: usize) -> Net {
    let reach = r.pick(&[8, 600 * ranges.micrometre, ranges.pin_limit]);
    let root = pins::root(r, ranges, reach);
    let points = (0..n)
        .map(|_| pins::about(r, ranges, root, reach))
        .collect();
    with_ties(r, ranges, root, points)
}

/// Corners m,m from the root, and points m+x,-y from it: these are as near to
/// that corner as to the root.
pub fn as_near(r: &mut Random, ranges: &Ranges, n: usize) -> Net {
    let root = point(r, 50);
    let m = r.between(1, 20);
    let points = (0..n)
        .map(|_| match r.index(2) {
            0 => turned(r, root, m, m),
            _ => {
                let (x, y) = (m + r.between(0, m), r.between(0, m));
                turned(r, root, x, -y)
            }
        })
        .collect();
    with_ties(r, ranges, root, points)
}

/// x,y from the root, in one of the four directions.
fn turned(r: &mut Random, root: Point, x: i64, y: i64) -> Point {
    let (x, y) = r.pick(&pins::turns(x, y));
    pins::offset(root, x, y)
}

/// The first place on a side of the root is one short of 2 to this power.
fn first_out(ranges: &Ranges) -> usize {
    ranges.pin_limit.ilog2() as usize
}

/// How many sinks can be on the four sides of the root, each less than half as
/// far out as the one before on its side. The cluster is the first of all.
fn most_on_sides(ranges: &Ranges) -> usize {
    4 * first_out(ranges) - 1
}

fn on_side(ranges: &Ranges, root: Point, i: usize) -> Point {
    let place = i + 1;
    let out = (1 << (first_out(ranges) - place / 4)) - 1;
    let (x, y) = pins::turns(out, 0)[place % 4];
    pins::offset(root, x, y)
}

/// So wide a cluster out to the limit, or one spot at it.
fn in_cluster(r: &mut Random, ranges: &Ranges, root: Point, width: i64) -> Point {
    let (x, y) = (r.between(0, width), r.between(-width, width));
    pins::offset(root, ranges.pin_limit - width - x, y)
}

/// An urgent sink, a cluster far out, then sinks on the root's sides. To each
/// of these the root is nearer than any tied sink, so an edge above a branch
/// point is split, and the whole cluster gets one deeper.
fn around_root(r: &mut Random, ranges: &Ranges, n: usize, on_sides: usize, cluster: i64) -> Net {
    let root = point(r, ranges.coordinate - ranges.pin_limit);
    let branch = r.between(1, 1000 * ranges.micrometre);
    let mut points: Vec<Point> = (on_sides..n)
        .map(|_| in_cluster(r, ranges, root, cluster))
        .collect();
    points.extend((0..on_sides).map(|i| on_side(ranges, root, i)));
    let spare = branch * (n as i64 + 1);
    let own = (0..n as i64).map(|k| if k == 0 { 0 } else { spare + k });
    let mut sinks = zip(points, own.collect());
    if r.once_in(2) {
        shuffle(r, &mut sinks);
    }
    net(r, ranges, root, branch, sinks)
}

pub fn near_root(r: &mut Random, ranges: &Ranges, n: usize) -> Net {
    let most = n.min(most_on_sides(ranges)) as i64;
    let on_sides = r.between(1, most) as usize;
    let cluster = r.pick(&[0, 1000 * ranges.micrometre]);
    around_root(r, ranges, n, on_sides, cluster)
}

/// As many as can be on the sides, and the rest spread over the cluster.
pub fn tree_near_root(r: &mut Random, ranges: &Ranges, n: usize) -> Net {
    let on_sides = most_on_sides(ranges).min(n / 2);
    around_root(r, ranges, n, on_sides, 1000 * ranges.micrometre)
}

/// As many as can be on the sides, and the rest on one spot, so that they make
/// a path.
pub fn path_near_root(r: &mut Random, ranges: &Ranges, n: usize) -> Net {
    let on_sides = most_on_sides(ranges).min(n / 2);
    around_root(r, ranges, n, on_sides, 0)
}

/// Any of these.
pub fn any(r: &mut Random, ranges: &Ranges, n: usize) -> Net {
    match r.index(6) {
        0 => few_spots(r, ranges, n),
        1 => one_spot(r, ranges, n),
        2 => deep(r, ranges, n),
        3 => spread_out(r, ranges, n),
        4 => as_near(r, ranges, n),
        _ => near_root(r, ranges, n),
    }
}
