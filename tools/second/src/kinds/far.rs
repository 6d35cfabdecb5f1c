//! Pins at the limit and beyond it. What must be told follows from how each
//! net was made.

use super::planned::plan_and_judge;
use super::spoilt::spoilt;
use crate::damage;
use crate::metals;
use crate::nets::{self, line_of};
use crate::pins;
use crate::random::Random;
use crate::session::Session;
use repeater_tree::{LISTING_LENGTH, NET_LENGTH};
use second_reference::answer::Answer;
use second_reference::net::{Net, COORDINATE, NEED, PIN_LIMIT};
use second_reference::slow;
use second_reference::tree::Point;

/// Plan and judge both refuse the net so, whatever the output and the listing.
pub fn refused(s: &mut Session, r: &mut Random, net: &[u8], number: u8, line: usize) {
    let length = r.pick(&[0, 60, LISTING_LENGTH]);
    let listing = r.pick(&[&b""[..], b"slack=0\nwire=0\nsinks=1\nleaf=1,0\n", net]);
    let planned = s.plan(net, length).answer;
    let judged = s.judge(net, listing);
    for answer in [planned, judged] {
        expect_refusal(s, answer, number, line, net, listing);
    }
}

pub fn expect_refusal(
    s: &mut Session,
    answer: Answer,
    number: u8,
    line: usize,
    net: &[u8],
    listing: &[u8],
) {
    let told = (answer.number, answer.text, answer.line) == (number, 1, line);
    let what = format!("the net is not refused by {number} on line {line}");
    s.expect(told, &what, answer, net, listing);
}

/// Sink i alone decides: its line is told, or with 0 the net is accepted.
fn decided(s: &mut Session, r: &mut Random, net: &Net, i: usize, number: u8) {
    match number {
        0 => plan_and_judge(s, net),
        _ => refused(s, r, &net.text(), number, line_of(i)),
    }
}

/// One pin just within the limit, at it, just beyond it and far beyond.
pub fn limit(s: &mut Session, r: &mut Random) {
    let n = r.between(1, 4) as usize;
    let (mut net, i) = (nets::any(r, n), r.index(n));
    let beyond = r.between(PIN_LIMIT + 1, COORDINATE);
    for (distance, number) in [
        (PIN_LIMIT - 1, 0),
        (PIN_LIMIT, 0),
        (PIN_LIMIT + 1, 13),
        (2 * PIN_LIMIT, 13),
        (beyond, 13),
    ] {
        for at in all_at(r, net.root, distance) {
            net.sinks[i].at = at;
            decided(s, r, &net, i, number);
        }
    }
}

/// So far from the root by x or y alone, by all but one of it, by halves and by
/// any shares, wherever the range has room.
fn all_at(r: &mut Random, root: Point, distance: i64) -> Vec<Point> {
    let any = r.between(0, distance);
    [0, 1, distance / 2, distance - 1, any]
        .into_iter()
        .flat_map(|x| pins::turns(x, distance - x))
        .map(|(x, y)| pins::offset(root, x, y))
        .filter(|&at| pins::in_range(at))
        .collect()
}

/// One pin at an end of the range, next to it and past it, the others at the
/// root, which is just near enough, next to that place, at either end or in the
/// middle.
pub fn range_ends(s: &mut Session, r: &mut Random) {
    let n = r.between(1, 4) as usize;
    let (mut net, i) = (metals::drawn(r, nets::common, n), r.index(n));
    let any = r.between(1, PIN_LIMIT - 1);
    let aside = r.pick(&[0, any]);
    let low = r.between(-COORDINATE, COORDINATE - aside);
    let enough = COORDINATE - (PIN_LIMIT - aside);
    for root in [enough - 1, enough, enough + 1, COORDINATE, 0, -COORDINATE] {
        for pin in [COORDINATE - 1, COORDINATE, COORDINATE + 1] {
            let number = match (pin - root).abs() + aside {
                _ if pin > COORDINATE => 3,
                distance if distance > PIN_LIMIT => 13,
                _ => 0,
            };
            for side in 0..4 {
                let at = |x, y| {
                    let (x, y) = pins::turns(x, y)[side];
                    Point::new(x, y)
                };
                net.root = at(root, low);
                net.sinks.iter_mut().for_each(|s| s.at = net.root);
                net.sinks[i].at = at(pin, low + aside);
                decided(s, r, &net, i, number);
            }
        }
    }
}

/// Several far pins: the lowest line is told, and once its pin is back near the
/// root, the next.
pub fn several(s: &mut Session, r: &mut Random) {
    let n = if r.once_in(50) {
        512
    } else {
        r.between(2, 40) as usize
    };
    let near = nets::any(r, n);
    let mut net = near.clone();
    let mut far: Vec<usize> = (0..r.between(2, 6)).map(|_| r.index(n)).collect();
    far.sort();
    far.dedup();
    for &i in &far {
        net.sinks[i].at = pins::beyond(r, net.root);
    }
    for i in far {
        decided(s, r, &net, i, 13);
        net.sinks[i] = near.sinks[i];
    }
    plan_and_judge(s, &net);
}

/// A small net with a far pin, and that pin's line.
fn small_net(r: &mut Random) -> (Net, usize) {
    let n = r.between(1, 5) as usize;
    let near = nets::any(r, n);
    nets::with_far_pin(r, near)
}

/// Every number misspelt or out of range: told up to the far pin's line, passed
/// over behind it.
pub fn faults(s: &mut Session, r: &mut Random) {
    let (net, far) = small_net(r);
    let text = net.text();
    for (k, at) in damage::numbers(&text).into_iter().enumerate() {
        let line = match k {
            0 | 1 => 1,
            2 => 2,
            3 | 4 => 3,
            5 | 6 => k - 1,
            _ => line_of((k - 7) / 4),
        };
        for (by, number) in [(&b"-0"[..], 2), (b"9999999999999999", 3)] {
            let other = damage::replaced(&text, at.clone(), by);
            if line <= far {
                refused(s, r, &other, number, line);
            } else {
                refused(s, r, &other, 13, far);
            }
        }
    }
    behind(s, r, &text, far);
    unreachable(s, r, net, far);
}

/// Bytes behind the last line, up to the text's length and past it.
fn behind(s: &mut Session, r: &mut Random, text: &[u8], far: usize) {
    for tail in [&b"\n"[..], b"x", b"sink=0,0,0,1\n", text] {
        refused(s, r, &[text, tail].concat(), 13, far);
    }
    let full = damage::of_length(r, text, NET_LENGTH).swap_remove(0);
    refused(s, r, &full, 13, far);
    let over = damage::of_length(r, text, NET_LENGTH + 1).swap_remove(0);
    refused(s, r, &over, 1, 0);
}

fn unreachable(s: &mut Session, r: &mut Random, mut net: Net, far: usize) {
    net.need = NEED.1;
    refused(s, r, &net.text(), 13, far);
}

/// Cut at every place: a missing line is told only before the far pin's.
pub fn cuts(s: &mut Session, r: &mut Random) {
    let (net, far) = small_net(r);
    let text = net.text();
    for end in 0..=text.len() {
        let part = &text[..end];
        let ended = part.iter().filter(|&&b| b == b'\n').count();
        if ended < far {
            refused(s, r, part, 2, ended + 1);
        } else {
            refused(s, r, part, 13, far);
        }
    }
}

/// The listing is not looked at: not the near net's plan, not the tree that the
/// far net would have, with its true measures, and none with a fault.
pub fn listings(s: &mut Session, r: &mut Random) {
    let n = r.between(1, 5) as usize;
    let near = nets::any(r, n);
    let plan = s.plan(&near.text(), LISTING_LENGTH).listing().to_vec();
    let (net, line) = nets::with_far_pin(r, near);
    let text = net.text();
    let without_limit = slow::listing_of(&net, slow::planned(&net)).text();
    let mut all = vec![plan.clone(), without_limit, text.clone(), Vec::new()];
    all.extend(damage::of_length(r, &plan, LISTING_LENGTH));
    all.extend(damage::of_length(r, &plan, LISTING_LENGTH + 1));
    all.extend((0..10).map(|_| spoilt(r, &plan)));
    for listing in all {
        let answer = s.judge(&text, &listing);
        expect_refusal(s, answer, 13, line, &text, &listing);
    }
}

/// Any damage to a net with a far pin.
pub fn spoilt_nets(s: &mut Session, r: &mut Random) {
    let (net, _) = small_net(r);
    let text = net.text();
    for _ in 0..20 {
        let other = spoilt(r, &text);
        s.plan(&other, LISTING_LENGTH);
        s.judge(&other, b"");
    }
}
