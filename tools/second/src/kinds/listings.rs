//! Listings of random trees.

use crate::metals;
use crate::nets;
use crate::random::Random;
use crate::ranges::{Ranges, NANOMETRES};
use crate::session::Session;
use crate::trees;
use second_reference::listing::Listing;
use second_reference::net::Net;
use second_reference::slow::listing_of;

/// Of any tree, branch points anywhere in these ranges or at their ends.
pub fn random_listing(r: &mut Random, ranges: &Ranges, net: &Net) -> Listing {
    let parent = trees::random_parents(r, net.sinks.len());
    let last = ranges.coordinate;
    let reach = r.pick(&[3, 5_000 * ranges.micrometre, last]);
    let mut tree = trees::placed(r, ranges, net, parent, reach);
    if r.once_in(3) {
        for at in &mut tree.point[net.sinks.len() + 1..] {
            at.x = r.pick(&[-last, last]) as i128;
            at.y = r.pick(&[-last, last]) as i128;
        }
    }
    listing_of(net, tree)
}

/// A true listing is accepted; one that is off by one in slack or wire is not.
fn judged(s: &mut Session, r: &mut Random, n: usize) {
    let net = nets::any(r, n);
    let text = net.text();
    let listing = random_listing(r, &NANOMETRES, &net);
    let off = r.pick(&[-1, 1]);
    for (slack, wire, number) in [(0, 0, 0), (off, 0, 11), (0, off, 12), (off, off, 11)] {
        let mut other = listing.clone();
        other.slack += slack;
        other.wire += wire;
        if other.wire < 0 {
            continue;
        }
        let bytes = other.text();
        let answer = s.judge(&text, &bytes);
        let what = "a true or false listing is taken otherwise";
        s.expect(answer.number == number, what, answer, &text, &bytes);
    }
}

pub fn random(s: &mut Session, r: &mut Random) {
    let n = r.pick(&[1, 2, 3, 4, 7, 12, 30, 64]);
    judged(s, r, n);
}

pub fn full(s: &mut Session, r: &mut Random) {
    judged(s, r, 512);
    // The ends of a parent's range, and of the sinks within it.
    let net = nets::any(r, 512);
    let listing = random_listing(r, &NANOMETRES, &net);
    for parent in [0, 1, 512, 513, 1023, 1024] {
        let mut other = listing.clone();
        other.tree.parent[1 + r.index(1023)] = parent;
        s.judge(&net.text(), &other.text());
    }
}

/// A listing of another number of sinks.
pub fn wrong_n(s: &mut Session, r: &mut Random) {
    let n = r.between(1, 20) as usize;
    let other = if r.once_in(2) {
        n + 1
    } else {
        r.between(1, 20) as usize
    };
    let net = metals::drawn(r, nets::common, n);
    let rival = metals::drawn(r, nets::common, other);
    let bytes = random_listing(r, &NANOMETRES, &rival).text();
    let answer = s.judge(&net.text(), &bytes);
    let right = (answer.number == 7) == (n != other);
    s.expect(
        right,
        "7 is not given exactly for another n",
        answer,
        &net.text(),
        &bytes,
    );
}

/// A legal tree with one or two parents exchanged or replaced: rings, wrong
/// counts, sinks as parents.
pub fn rings(s: &mut Session, r: &mut Random) {
    let n = r.pick(&[2, 3, 4, 6, 10, 40, 130]);
    let net = metals::drawn(r, nets::common, n);
    let text = net.text();
    let listing = random_listing(r, &NANOMETRES, &net);
    for _ in 0..4 {
        let other = with_odd_parents(r, &listing);
        s.judge(&text, &other.text());
    }
}

pub fn with_odd_parents(r: &mut Random, listing: &Listing) -> Listing {
    let mut other = listing.clone();
    let vertices = other.tree.parent.len();
    let (i, j) = (1 + r.index(vertices - 1), 1 + r.index(vertices - 1));
    match r.index(4) {
        0 => other.tree.parent[i] = r.index(vertices),
        1 => other.tree.parent[i] = i,
        _ => other.tree.parent.swap(i, j),
    }
    other
}
