//! Pins deleted one after the other (02, request 9): in any order, down to one.

use super::deleted::{any_of, last};
use super::scored::judged;
use crate::nets::shuffle;
use crate::random::Random;
use crate::scores::Judged;
use crate::session::Session;
use second_reference::net::Net;
use second_reference::tree::Tree;

/// The same sinks in two orders: what is left is the same, byte for byte.
pub fn orders(s: &mut Session, r: &mut Random) {
    let (net, tree) = any_of(r, 3, 20);
    let texts = judged(s, &net, tree);
    let n = net.sinks.len();
    let mut sinks: Vec<usize> = (1..=n).collect();
    shuffle(r, &mut sinks);
    sinks.truncate(r.between(2, n as i64 - 1) as usize);
    let one = without(s, &texts, &sinks);
    shuffle(r, &mut sinks);
    let two = without(s, &texts, &sinks);
    let (Some(one), Some(two)) = (one, two) else {
        return;
    };
    if (&one.net, &one.listing) != (&two.net, &two.listing) {
        let what = "the order in which pins are deleted shows";
        let left = [("one", &one.listing[..]), ("other", &two.listing)];
        let given = [("net", &texts.net[..]), ("listing", &texts.listing)];
        s.disagree(what, &[given, left].concat());
    }
}

/// Deletes sinks, named by their numbers at the start, one after the other.
fn without(s: &mut Session, texts: &Judged, sinks: &[usize]) -> Option<Judged> {
    let mut left = s.judged(texts.net.clone(), texts.listing.clone());
    for (i, &sink) in sinks.iter().enumerate() {
        let fallen = sinks[..i].iter().filter(|&&other| other < sink).count();
        left = s.shorten(&left, sink - fallen)?;
    }
    Some(left)
}

pub fn chains(s: &mut Session, r: &mut Random) {
    let (net, tree) = any_of(r, 2, 40);
    down_to_one(s, r, &net, tree);
}

/// From some hundred sinks.
pub fn down(s: &mut Session, r: &mut Random) {
    let n = r.pick(&[100, 200, 300, 512]);
    let (net, tree) = any_of(r, n, n);
    down_to_one(s, r, &net, tree);
}

/// Mostly in any order. The last one hangs on the root by a straight wire, so its
/// slack is the best; then there is none to delete.
fn down_to_one(s: &mut Session, r: &mut Random, net: &Net, tree: Tree) {
    let mut texts = judged(s, net, tree);
    let order = r.index(6);
    for n in (2..=net.sinks.len()).rev() {
        let sink = match order {
            0 => 1,
            1 => n,
            _ => 1 + r.index(n),
        };
        match s.shorten(&texts, sink) {
            Some(shorter) => texts = shorter,
            None => return,
        }
    }
    s.deletions.chains += 1;
    let answer = texts.answer;
    let straight = answer.slack == answer.last;
    let what = "the last sink has less slack than by a straight wire";
    s.expect(straight, what, answer, &texts.net, &texts.listing);
    last(s, &texts);
}
