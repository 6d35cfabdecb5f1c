//! Where a deletion is refused and where not: sinks that are not there, outputs
//! that are too short, and texts that judge refuses.

use super::deleted::told;
use super::listings::{random_listing, with_odd_parents};
use super::scored::{any_tree, judged};
use super::spoilt::spoilt;
use crate::damage;
use crate::deleted::Room;
use crate::metals;
use crate::nets;
use crate::random::Random;
use crate::ranges::NANOMETRES;
use crate::scores::Judged;
use crate::session::Session;
use repeater_tree::{LISTING_LENGTH, NET_LENGTH};
use second_reference::listing::Listing;
use second_reference::net::Net;
use second_reference::slow::listing_of;

/// No sink's number over n sinks: past the ends, those of branch points, equal to
/// a sink's number modulo a word's size, and the ends of all numbers.
fn no_sinks(n: usize) -> Vec<usize> {
    let past = [0, n + 1, 2 * n, n + 512, 1_000_000_000];
    let words = [8, 16, 31, 32, 53, 63].map(|bits| 1 << bits);
    let words = words.iter().flat_map(|word| [*word, word + 1, word + n]);
    let last = [usize::MAX - n, usize::MAX - 1, usize::MAX];
    past.into_iter().chain(words).chain(last).collect()
}

/// Too little, and enough for every text.
fn rooms(r: &mut Random, texts: &Judged) -> Vec<Room> {
    let (net, listing) = (texts.net.len(), texts.listing.len());
    let any = Room::new(r.index(2 * net + 1), r.index(2 * listing + 1));
    vec![
        Room::new(0, 0),
        Room::new(net, 0),
        Room::new(0, listing),
        Room::new(net, listing),
        any,
    ]
}

/// 15 before 16, and both before 6.
pub fn sinks(s: &mut Session, r: &mut Random) {
    let most = r.pick(&[1, 12]);
    let (net, tree) = any_tree(r, most);
    let n = net.sinks.len();
    let texts = judged(s, &net, tree);
    for sink in no_sinks(n) {
        for room in rooms(r, &texts) {
            told(s, &texts, sink, room, 15);
        }
    }
    if n == 1 {
        for room in rooms(r, &texts) {
            told(s, &texts, 1, room, 16);
        }
    }
}

/// 6 exactly where either output is shorter than its text.
pub fn outputs(s: &mut Session, r: &mut Random) {
    let most = r.pick(&[4, 12, 40]);
    let (net, tree) = any_tree(r, most);
    let n = net.sinks.len();
    let texts = judged(s, &net, tree);
    if n == 1 {
        return;
    }
    let sink = 1 + r.index(n);
    let Some(shorter) = s.shorten(&texts, sink) else {
        return;
    };
    let exact = Room::as_before(&shorter);
    let lengths = |r: &mut Random, exact: usize| {
        let (below, above) = (r.index(exact), exact + r.index(exact));
        [0, 1, below, exact - 1, exact, exact + 1, above]
    };
    for net in lengths(r, exact.net) {
        for listing in lengths(r, exact.listing) {
            let short = net < exact.net || listing < exact.listing;
            let room = Room::new(net, listing);
            told(s, &texts, sink, room, if short { 6 } else { 0 });
        }
    }
    let long = Room::new(2 * NET_LENGTH + 1, 3 * LISTING_LENGTH);
    told(s, &texts, sink, long, 0);
}

/// Whatever the sink and the outputs, judge's refusal is told.
pub fn refused(s: &mut Session, r: &mut Random) {
    let (net, tree) = any_tree(r, 8);
    let listing = listing_of(&net, tree);
    for (net, listing) in refused_texts(r, &net, &listing) {
        let texts = s.judged(net, listing);
        let any = 1 + r.index(8);
        let out = r.pick(&no_sinks(8));
        for sink in [any, 0, out] {
            let all = rooms(r, &texts);
            let room = r.pick(&all);
            s.delete_pin(&texts, sink, room);
        }
    }
}

/// Damaged, wrong, false, far and long ones, and some that are as good as before.
fn refused_texts(r: &mut Random, net: &Net, listing: &Listing) -> Vec<(Vec<u8>, Vec<u8>)> {
    let (text, bytes) = (net.text(), listing.text());
    let mut all = Vec::new();
    for _ in 0..4 {
        let (other, tree) = (spoilt(r, &text), spoilt(r, &bytes));
        all.push((other.clone(), bytes.clone()));
        all.push((text.clone(), tree.clone()));
        all.push((other, tree));
        all.push((text.clone(), with_odd_parents(r, listing).text()));
    }
    for (slack, wire) in [(1, 0), (0, 1), (1, 1)] {
        let mut other = listing.clone();
        other.slack += slack;
        other.wire += wire;
        all.push((text.clone(), other.text()));
    }
    let n = r.between(1, 8) as usize;
    let another = metals::drawn(r, nets::common, n);
    let another = random_listing(r, &NANOMETRES, &another);
    all.push((text.clone(), another.text()));
    let (far, _) = nets::with_far_pin(r, net.clone());
    all.push((far.text(), bytes.clone()));
    for other in damage::of_length(r, &text, NET_LENGTH + 1) {
        all.push((other, bytes.clone()));
    }
    for other in damage::of_length(r, &bytes, LISTING_LENGTH + 1) {
        all.push((text.clone(), other));
    }
    all
}
