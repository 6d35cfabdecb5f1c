//! Two metal directions: nets and listings that the factors decide.

use super::planned::{near_size, plan_and_judge};
use crate::metals;
use crate::near;
use crate::nets;
use crate::random::Random;
use crate::ranges::{self, NANOMETRES};
use crate::session::Session;
use crate::shapes::{Make, SHAPES};
use crate::trees;
use repeater_tree::LISTING_LENGTH;
use second_reference::listing::{Listing, WIRE};
use second_reference::net::{Factors, Net, COORDINATE};
use second_reference::slow::listing_of;
use second_reference::tree;

/// Every shape with factors as far apart as can be.
pub fn far_apart(s: &mut Session, r: &mut Random) {
    let n = near_size(r);
    let ((_, make), ranges) = (r.pick(&SHAPES), ranges::any(r));
    let net = make(r, ranges, n);
    let wire = metals::far_apart(r);
    plan_and_judge(s, &metals::slacks_kept(ranges, net.clone(), wire));
    plan_and_judge(s, &Net { wire, ..net });
}

/// Own slacks that tie from different points and arrivals, or only by the
/// factors.
pub fn ties(s: &mut Session, r: &mut Random) {
    let n = near_size(r);
    let ranges = ranges::any(r);
    plan_and_judge(s, &metals::balanced(r, ranges, n));
    plan_and_judge(s, &metals::differing(r, ranges, nets::tied, n));
}

/// Many edges tie, and nearness would choose otherwise if it were weighed.
pub fn nearness(s: &mut Session, r: &mut Random) {
    let n = near_size(r);
    let make: Make = r.pick(&[near::spread_out as Make, near::as_near, near::few_spots]);
    let ranges = ranges::any(r);
    plan_and_judge(s, &metals::differing(r, ranges, make, n));
}

/// With x and y exchanged, and the factors with them, the plan is the same but
/// for its points, whose x and y are exchanged.
pub fn mirrored(s: &mut Session, r: &mut Random) {
    let n = near_size(r);
    let net = nets::any(r, n);
    let other = metals::mirrored(&net);
    let one = s.plan(&net.text(), LISTING_LENGTH);
    let two = s.plan(&other.text(), LISTING_LENGTH);
    let mut expected = Listing::read(one.listing(), &net).ok();
    if let Some(listing) = &mut expected {
        for at in &mut listing.tree.point {
            *at = metals::exchanged(*at);
        }
    }
    let got = Listing::read(two.listing(), &other).ok();
    let what = "a mirrored net has another plan";
    let same = got.is_some() && got == expected;
    s.expect(same, what, two.answer, &other.text(), two.listing());
}

/// True listings of any tree, and such as are true with other factors or
/// another wire alone.
pub fn listings(s: &mut Session, r: &mut Random) {
    let n = r.pick(&[1, 2, 3, 5, 12, 40]);
    let net = nets::any(r, n);
    let parent = trees::random_parents(r, n);
    let reach = r.pick(&[3, 5_000_000, COORDINATE]);
    let listing = listing_of(&net, trees::placed(r, &NANOMETRES, &net, parent, reach));
    judged(s, &net, &listing, 0);
    for wire in others(net.wire) {
        let mut other = net.clone();
        other.wire = wire;
        let mut stated = listing.clone();
        stated.slack = tree::worst_slack(&other, &listing.tree) as i64;
        judged(s, &net, &stated, 11);
    }
    let mut weighed = listing.clone();
    weighed.wire = weighed_wire(&net, &listing);
    judged(s, &net, &weighed, 12);
    two_wires(s, &net, &listing);
}

/// The factors exchanged, and either of them in both directions.
fn others(wire: Factors) -> [Factors; 3] {
    let (h, v) = (wire.horizontal, wire.vertical);
    [wire.exchanged(), Factors::equal(h), Factors::equal(v)]
}

/// Accepted where it states the truth, else refused by this number.
fn judged(s: &mut Session, net: &Net, listing: &Listing, number: u8) {
    let stated = listing_of(net, listing.tree.clone());
    let number = if stated == *listing { 0 } else { number };
    let (net, bytes) = (net.text(), listing.text());
    let answer = s.judge(&net, &bytes);
    let what = format!("a listing is not answered by {number}");
    s.expect(answer.number == number, &what, answer, &net, &bytes);
}

/// The delay of all edges, or the largest wire that a listing may state.
fn weighed_wire(net: &Net, listing: &Listing) -> i64 {
    let tree = &listing.tree;
    let delay = |v: usize| net.wire.delay(tree.point[v], tree.point[tree.parent[v]]);
    let sum: i128 = (1..tree.parent.len()).map(delay).sum();
    sum.min(WIRE.1 as i128) as i64
}

/// The listing's line of wire has one number still.
fn two_wires(s: &mut Session, net: &Net, listing: &Listing) {
    let line = format!("wire={}\n", listing.wire);
    let two = format!("wire={0},{0}\n", listing.wire);
    let text = String::from_utf8_lossy(&listing.text()).replacen(&line, &two, 1);
    let net = net.text();
    let answer = s.judge(&net, text.as_bytes());
    let told = (answer.number, answer.text, answer.line) == (2, 2, 2);
    let what = "a listing with two wires is not refused";
    s.expect(told, what, answer, &net, text.as_bytes());
}
