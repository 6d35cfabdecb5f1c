//! 02, request 5: "Nothing is lost". Of two nets one of which has every
//! position, c, t and every a of the other so many times as large, the library
//! plans both alike.

use super::listings::random_listing;
use super::planned::near_size;
use crate::metals;
use crate::nets;
use crate::random::Random;
use crate::ranges::{MICROMETRES, NANOMETRES};
use crate::scaled;
use crate::session::{Planned, Session};
use crate::shapes::{MARKED, METALS, SHAPES};
use repeater_tree::LISTING_LENGTH;
use second_reference::kraft;
use second_reference::net::{Net, Sink};
use second_reference::tree::Point;

/// The request's.
const THOUSAND: i64 = 1_000;
/// Others hold as well.
const FACTORS: [i64; 6] = [THOUSAND, THOUSAND, THOUSAND, 2, 7, 999];

/// Nets of the ranges before request 5, at their ends too, and their images.
pub fn images(s: &mut Session, r: &mut Random) {
    let net = drawn_small(r);
    let net = asking(r, net);
    let factor = r.pick(&FACTORS);
    compare(s, &net, factor);
}

/// Nets of the format's ranges whose numbers are all multiples of 1,000, and
/// what they are multiples of.
pub fn quotients(s: &mut Session, r: &mut Random) {
    let n = size(r);
    let (_, make) = r.pick(&SHAPES);
    let net = metals::drawn_in(r, &NANOMETRES, make, n);
    let net = asking(r, quotient(&net));
    compare(s, &net, THOUSAND);
}

/// The order's marked nets, and the longest of the ranges before.
pub fn marked(s: &mut Session, r: &mut Random) {
    for (_, text) in MARKED.iter().chain(&METALS) {
        let net = Net::read(text).expect("a marked net");
        let asked = asking(r, net.clone());
        compare(s, &net, THOUSAND);
        compare(s, &asked, THOUSAND);
    }
    compare(s, &nets::longest(&MICROMETRES), THOUSAND);
}

fn size(r: &mut Random) -> usize {
    if r.once_in(8) {
        1
    } else {
        near_size(r)
    }
}

fn drawn_small(r: &mut Random) -> Net {
    let n = size(r);
    let (_, make) = r.pick(&SHAPES);
    metals::drawn_in(r, &MICROMETRES, make, n)
}

/// The need as it was, or about the best slack: just reached, or not.
fn asking(r: &mut Random, mut net: Net) -> Net {
    let best = kraft::maximum(&net) as i64;
    let (low, far) = (net.need, best + net.branch);
    net.need = r.pick(&[low, low, low, best - 1, best, best, best + 1, far]);
    net
}

/// Each number rounded; a pin that thereby leaves the limit goes to the root.
fn quotient(net: &Net) -> Net {
    let rounded = |p: Point| Point {
        x: p.x / THOUSAND as i128,
        y: p.y / THOUSAND as i128,
    };
    let root = rounded(net.root);
    let limit = MICROMETRES.pin_limit as i128;
    let sink = |sink: &Sink| {
        let at = rounded(sink.at);
        Sink {
            at: if root.distance(at) > limit { root } else { at },
            arrival: sink.arrival / THOUSAND,
            ..*sink
        }
    };
    Net {
        root,
        branch: (net.branch / THOUSAND).max(1),
        wire: net.wire,
        need: net.need / THOUSAND,
        sinks: net.sinks.iter().map(sink).collect(),
    }
}

/// A net's text or a listing's, and its image.
type Texts = [Vec<u8>; 2];

fn texts_of(net: &Net, factor: i64) -> Texts {
    let text = net.text();
    let image = scaled::net(&text, factor).expect("a net's text");
    [text, image]
}

/// Both are refused for their need, or neither is.
fn compare(s: &mut Session, net: &Net, factor: i64) {
    let nets = texts_of(net, factor);
    let [one, two] = [&nets[0], &nets[1]].map(|net| s.plan(net, LISTING_LENGTH));
    let numbers = (one.answer.number, two.answer.number);
    let listings = [one.listing().to_vec(), two.listing().to_vec()];
    let alike = match numbers {
        (5, 5) => true,
        (0, 0) => planned_alike(&one, &two, factor),
        _ => false,
    };
    if !alike {
        let what = format!("{:?} and {:?}", one.answer, two.answer);
        differ(s, "planned", factor, &what, &nets, &listings);
    }
    if numbers == (0, 0) {
        s.pairs.planned += 1;
        judge(s, &nets, &listings, factor);
    } else {
        s.pairs.refused += 1;
    }
}

/// By the figures and by what was written.
fn planned_alike(one: &Planned, two: &Planned, factor: i64) -> bool {
    let (a, b) = (one.answer, two.answer);
    let image = scaled::listing(one.listing(), factor);
    b.slack == a.slack * factor
        && b.wire == a.wire * factor as u64
        && image.as_deref() == Some(two.listing())
}

fn judge(s: &mut Session, nets: &Texts, listings: &Texts, factor: i64) {
    let [one, two] = [0, 1].map(|i| s.judge(&nets[i], &listings[i]));
    s.pairs.judged += 1;
    if !scaled::judged_alike(one, two, factor) {
        let what = format!("{one:?} and {two:?}");
        differ(s, "judged", factor, &what, nets, listings);
    }
}

fn differ(s: &mut Session, how: &str, factor: i64, what: &str, nets: &Texts, listings: &Texts) {
    let what = format!("a net and {factor} times it are not {how} alike\n{what}");
    let texts: [(&str, &[u8]); 4] = [
        ("net", &nets[0]),
        ("its image", &nets[1]),
        ("listing", &listings[0]),
        ("its image's", &listings[1]),
    ];
    s.disagree(&what, &texts);
}

/// Any tree's listing and its image: true, off by one in slack or wire, or
/// joined otherwise, so that it may be no legal tree's.
pub fn listings(s: &mut Session, r: &mut Random) {
    let net = drawn_small(r);
    let factor = r.pick(&FACTORS);
    let nets = texts_of(&net, factor);
    let truth = random_listing(r, &MICROMETRES, &net);
    let (mut slack, mut wire, mut joined) = (truth.clone(), truth.clone(), truth.clone());
    slack.slack += r.pick(&[-1, 1]);
    wire.wire += 1;
    let vertices = joined.tree.parent.len();
    let (i, j) = (1 + r.index(vertices - 1), 1 + r.index(vertices - 1));
    joined.tree.parent.swap(i, j);
    for listing in [truth, slack, wire, joined] {
        let text = listing.text();
        let image = scaled::listing(&text, factor).expect("a listing's text");
        judge(s, &nets, &[text, image], factor);
    }
}
