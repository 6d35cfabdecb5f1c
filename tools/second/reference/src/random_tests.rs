//! The references against each other on small random nets, and the gathered
//! numbers against their definitions.

use crate::answer::{Answer, Refusal};
use crate::kraft;
use crate::net::{Factors, Net, Sink, NEED};
use crate::tree::Point;
use crate::{gathered, plain, slow};

pub(crate) struct Random(pub u64);

impl Random {
    pub fn below(&mut self, limit: i64) -> i64 {
        self.0 ^= self.0 << 13;
        self.0 ^= self.0 >> 7;
        self.0 ^= self.0 << 17;
        (self.0 >> 11) as i64 % limit
    }
}

/// Small ones, at times far apart in either order.
fn random_factors(r: &mut Random) -> Factors {
    let (mut one, mut two) = (1 + r.below(4), 1 + r.below(4));
    if r.below(4) == 0 {
        (one, two) = (1, 10_000);
    }
    if r.below(2) == 0 {
        (one, two) = (two, one);
    }
    Factors::new(one, two)
}

/// A net whose pins are drawn about its root.
fn random_net(r: &mut Random, spread: i64, pin: impl Fn(&mut Random, Point) -> Point) -> Net {
    let n = 1 + r.below(14);
    let root = Point::new(r.below(2 * spread + 1) - spread, r.below(spread) - 3);
    let sinks = (0..n)
        .map(|_| Sink {
            at: pin(r, root),
            arrival: r.below(20 * spread) - 5 * spread,
            weight: 1,
        })
        .collect();
    Net {
        root,
        branch: 1 + r.below(spread),
        wire: random_factors(r),
        need: NEED.0,
        sinks,
    }
}

/// At most so far from the root, and in the range.
fn near_pin(r: &mut Random, root: Point, reach: i64) -> Point {
    let x = r.below(2 * reach + 1) - reach;
    let rest = reach - x.abs();
    let y = r.below(2 * rest + 1) - rest;
    Point {
        x: (root.x + x as i128).clamp(-100_000_000, 100_000_000),
        y: (root.y + y as i128).clamp(-100_000_000, 100_000_000),
    }
}

/// From the root inward, up to one beyond the limit.
fn pin_at_limit(r: &mut Random, root: Point) -> Point {
    let distance = 39_999_994 + r.below(8);
    let x = match r.below(4) {
        0 => 0,
        1 => distance,
        _ => r.below(distance + 1),
    };
    let inward = |from: i128, by: i64| from - by as i128 * if from > 0 { 1 } else { -1 };
    Point {
        x: inward(root.x, x),
        y: inward(root.y, distance - x),
    }
}

/// Answers of plan and of judge on its listing, the same from all references.
fn agreed(text: &[u8]) -> (Answer, Answer) {
    let mut one = vec![200; 2000];
    let planned = slow::plan(text, &mut one);
    for plan in [plain::plan, gathered::plan] {
        let mut two = vec![200; 2000];
        assert_eq!(planned, plan(text, &mut two));
        assert_eq!(one, two);
    }
    let listing = &one[..planned.last as usize];
    let judged = slow::judge(text, listing);
    assert_eq!(judged, plain::judge(text, listing));
    (planned, judged)
}

/// The net is accepted and its plan is the best.
fn check_plan(net: &Net) {
    let text = net.text();
    assert_eq!(Net::read(&text).as_ref(), Ok(net));
    let (planned, judged) = agreed(&text);
    assert_eq!(planned.number, 0);
    assert_eq!(planned.slack as i128, kraft::maximum(net));
    assert_eq!(
        (judged.slack, judged.wire, judged.last),
        (planned.slack, planned.wire, planned.slack)
    );
}

/// In turn from pins side by side to pins across the die.
pub(crate) fn net_of_round(r: &mut Random, round: usize) -> Net {
    let spread = [2, 6, 30, 1000, 99_000, 99_000_000][round % 6];
    let reach = 40_000_000.min(2 * spread);
    random_net(r, spread, |r, root| near_pin(r, root, reach))
}

/// Such a net with weights: any, few, all alike, at the ends, or rising so that
/// trees get deep.
pub(crate) fn weighed(r: &mut Random, round: usize) -> Net {
    let mut net = net_of_round(r, round);
    let most = [1, 2, 4, 12, 1000][r.below(5) as usize];
    let how = r.below(4);
    for (i, sink) in net.sinks.iter_mut().enumerate() {
        sink.weight = match how {
            0 => [1, 1000][r.below(2) as usize],
            1 => 1 << i.min(9),
            _ => 1 + r.below(most),
        };
    }
    net
}

#[test]
fn all_references_agree() {
    let mut r = Random(88172645463325252);
    for round in 0..600 {
        check_plan(&net_of_round(&mut r, round));
    }
}

/// A tree of k sinks has 2k vertices and 2k-1 edges, and all are checked.
#[test]
fn gathered_numbers_are_as_defined() {
    let mut r = Random(3);
    for round in 0..600 {
        let net = net_of_round(&mut r, round);
        let checked = gathered::check(&net).unwrap();
        let n = net.sinks.len() as u64;
        assert_eq!(
            (checked.vertices, checked.edges),
            (n * (n - 1), (n - 1) * (n - 1))
        );
    }
}

/// The net whose x and y are exchanged, and its factors with them.
fn mirrored(net: &Net) -> Net {
    let over = |p: Point| Point { x: p.y, y: p.x };
    let mut other = net.clone();
    other.root = over(net.root);
    other.sinks.iter_mut().for_each(|s| s.at = over(s.at));
    other.wire = net.wire.exchanged();
    other
}

#[test]
fn a_mirrored_net_has_the_mirrored_plan() {
    let mut r = Random(4);
    for round in 0..600 {
        let net = net_of_round(&mut r, round);
        let (one, two) = (slow::planned(&net), slow::planned(&mirrored(&net)));
        assert_eq!(one.parent, two.parent);
        let pairs = one.point.iter().zip(&two.point);
        assert!(pairs.clone().all(|(p, q)| (p.x, p.y) == (q.y, q.x)));
    }
}

/// A nanometre that costs h is h that cost 1, but for nearness and wire.
#[test]
fn own_slacks_are_those_of_stretched_nets() {
    let mut r = Random(7);
    for round in 0..600 {
        let net = net_of_round(&mut r, round);
        let mut other = net.clone();
        let stretched = |p: Point| Point {
            x: p.x * net.wire.horizontal as i128,
            y: p.y * net.wire.vertical as i128,
        };
        other.wire = Factors::equal(1);
        other.root = stretched(net.root);
        other.sinks.iter_mut().for_each(|s| s.at = stretched(s.at));
        assert_eq!(net.own_slacks(), other.own_slacks());
    }
}

#[test]
fn the_lowest_far_pin_is_told() {
    let mut r = Random(40_000_000);
    let mut refused = 0;
    for _ in 0..600 {
        let net = random_net(&mut r, 99_000_000, pin_at_limit);
        let away = |s: &Sink| (s.at.x - net.root.x).abs() + (s.at.y - net.root.y).abs();
        let Some(i) = net.sinks.iter().position(|s| away(s) > 40_000_000) else {
            check_plan(&net);
            continue;
        };
        refused += 1;
        let far = Answer::refused(Refusal {
            number: 13,
            text: 1,
            line: 6 + i,
        });
        assert_eq!(agreed(&net.text()), (far, far));
    }
    assert!((200..500).contains(&refused), "{refused} nets are refused");
}

#[test]
fn kraft_maximum_by_trying_every_value() {
    let mut r = Random(5);
    for _ in 0..2000 {
        let n = 1 + r.below(9);
        let c = 1 + r.below(7) as i128;
        let own: Vec<i128> = (0..n).map(|_| r.below(60) as i128 - 30).collect();
        let largest = (-200..60)
            .rev()
            .find(|&s| kraft::at_most_one(&own, c, s))
            .unwrap();
        assert_eq!(kraft::maximum_of(&own, c), largest);
    }
}

#[test]
fn kraft_maximum_with_floors_that_no_power_can_hold() {
    let far = 1_000_000_000_000_000;
    assert_eq!(kraft::maximum_of(&[0, far], 1), -1);
    assert_eq!(kraft::maximum_of(&[0, 1, 2, 3, far], 1), -1);
    assert_eq!(kraft::maximum_of(&[0, 0, far], 1), -2);
}
