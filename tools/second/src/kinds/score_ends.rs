//! Where a score is refused and where not: terms at their ends and past them,
//! slacks about the lowest, and texts that judge refuses.

use super::listings::{random_listing, with_odd_parents};
use super::scored::{any_tree, in_range, of_slack, out_of_range};
use super::spoilt::spoilt;
use crate::damage;
use crate::due::with_worst_slack;
use crate::metals;
use crate::nets;
use crate::random::Random;
use crate::ranges::NANOMETRES;
use crate::session::Session;
use crate::terms::{self, CAP, LOWEST, OUT_CAPS, OUT_WEIGHTS, WEIGHT};
use repeater_tree::{LISTING_LENGTH, NET_LENGTH};
use second_reference::slow::listing_of;
use second_reference::terms::Terms;

/// Each term at each end, one past it, far out and at the ends of all numbers:
/// what is told follows from the terms alone.
pub fn ends(s: &mut Session, r: &mut Random) {
    let (net, tree) = any_tree(r, 12);
    let any = r.between(LOWEST, 2 * CAP.1);
    let slack = r.pick(&[LOWEST, -1, 0, 1, CAP.1 - 1, CAP.1, CAP.1 + 1, any]);
    let tree = of_slack(s, r, &net, &tree, slack);
    for terms in inner() {
        in_range(s, &tree, terms);
    }
    let good = terms::any(r, slack);
    for out in OUT_WEIGHTS {
        out_of_range(s, &tree, Terms { alpha: out, ..good });
        out_of_range(s, &tree, Terms { beta: out, ..good });
    }
    for cap in OUT_CAPS {
        out_of_range(s, &tree, Terms { cap, ..good });
    }
    for _ in 0..8 {
        let terms = terms::spoilt(r, good);
        out_of_range(s, &tree, terms);
    }
}

/// All at the ends of their ranges, or next to them.
fn inner() -> impl Iterator<Item = Terms> {
    let four = |(low, high): (i64, i64)| [low, low + 1, high - 1, high];
    let weights = four(WEIGHT).map(|alpha| four(WEIGHT).map(|beta| (alpha, beta)));
    let caps = move |(alpha, beta)| four(CAP).map(|cap| Terms::new(alpha, beta, cap));
    weights.into_iter().flatten().flat_map(caps)
}

/// At the lowest slack and about it, also where nothing counts.
pub fn low(s: &mut Session, r: &mut Random) {
    let (net, tree) = any_tree(r, 12);
    let far = r.between(-100_000_000_000_000, -3);
    for above in [far, -2, -1, 0, 1, 2] {
        let slack = LOWEST + above;
        let tree = of_slack(s, r, &net, &tree, slack);
        let demand = if above < 0 { out_of_range } else { in_range };
        let good = terms::any(r, slack);
        for terms in [
            good,
            Terms { alpha: 0, ..good },
            Terms { beta: 0, ..good },
            Terms::new(0, 0, good.cap),
            Terms::new(WEIGHT.1, WEIGHT.1, CAP.0),
        ] {
            demand(s, &tree, terms);
        }
    }
}

/// Whatever the terms and the slack, judge's refusal is told.
pub fn refused(s: &mut Session, r: &mut Random) {
    let (net, tree) = any_tree(r, 8);
    let slack = r.pick(&[LOWEST - 1, 5]);
    let net = with_worst_slack(r, &net, &tree, slack);
    let listing = listing_of(&net, tree);
    let (text, bytes) = (net.text(), listing.text());
    for _ in 0..3 {
        let (other, tree) = (spoilt(r, &text), spoilt(r, &bytes));
        by_any_terms(s, r, &other, &bytes);
        by_any_terms(s, r, &text, &tree);
        by_any_terms(s, r, &other, &tree);
        let odd = with_odd_parents(r, &listing);
        by_any_terms(s, r, &text, &odd.text());
    }
    for (slack, wire) in [(1, 0), (0, 1), (1, 1)] {
        let mut other = listing.clone();
        other.slack += slack;
        other.wire += wire;
        by_any_terms(s, r, &text, &other.text());
    }
    let n = r.between(1, 8) as usize;
    let another = metals::drawn(r, nets::common, n);
    let another = random_listing(r, &NANOMETRES, &another);
    by_any_terms(s, r, &text, &another.text());
    let (far, _) = nets::with_far_pin(r, net);
    by_any_terms(s, r, &far.text(), &bytes);
    for other in damage::of_length(r, &text, NET_LENGTH + 1) {
        by_any_terms(s, r, &other, &bytes);
    }
    for other in damage::of_length(r, &bytes, LISTING_LENGTH + 1) {
        by_any_terms(s, r, &text, &other);
    }
}

/// In range, and out of it twice.
fn by_any_terms(s: &mut Session, r: &mut Random, net: &[u8], listing: &[u8]) {
    let texts = s.judged(net.to_vec(), listing.to_vec());
    let good = terms::any(r, texts.answer.slack);
    for terms in [good, terms::spoilt(r, good), terms::spoilt(r, good)] {
        s.score(&texts, terms);
    }
}
