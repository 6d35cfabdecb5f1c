//! The third plan (02, request 7): weights that tie and weights that make deep
//! trees, needs that nobody reaches, outputs of every length, damaged nets; and
//! what weights must not change.

use super::further::{drawn, Further};
use crate::metals;
use crate::nets;
use crate::random::Random;
use crate::ranges::NANOMETRES;
use crate::session::Session;
use crate::shapes::{Make, MARKED, METALS, RANGE_END, SHAPES, SHORT, WEIGHTED};
use crate::streets;
use crate::weighted::FEW_SINKS;
use crate::weights::{self, WEIGHTS};
use repeater_tree::LISTING_LENGTH;
use second_reference::net::{Net, NEED};

const THIRD_PLAN: Further = Further {
    name: "third plan",
    plan: Session::plan_weighted,
    check: Session::check_weighted_delay,
    unreachable: |s| &mut s.weighted.unreachable,
};

pub fn marked(s: &mut Session, r: &mut Random) {
    let all = MARKED.iter().chain(&METALS).chain(&RANGE_END);
    THIRD_PLAN.given(s, r, all.chain(&SHORT).chain(&WEIGHTED));
}

/// Of every shape, whether its times are of a kind or its places.
pub fn any_shape(r: &mut Random) -> Make {
    let (_, make) = r.pick(&SHAPES);
    r.pick(&[make, streets::any])
}

/// Mostly small, with any weights.
pub fn random(s: &mut Session, r: &mut Random) {
    let (n, make) = (r.between(1, 40) as usize, any_shape(r));
    THIRD_PLAN.plan_and_judge(s, &metals::drawn(r, make, n));
}

/// Sinks tie with each other and with joined vertices.
pub fn ties(s: &mut Session, r: &mut Random) {
    let (n, make) = (r.between(2, 40) as usize, any_shape(r));
    let net = metals::drawn(r, make, n);
    THIRD_PLAN.plan_and_judge(s, &weights::tying(r, net));
}

/// Weights that double, or grow by as little as makes a path.
pub fn deep(s: &mut Session, r: &mut Random) {
    let (n, make) = (r.between(2, 40) as usize, any_shape(r));
    let net = metals::drawn(r, make, n);
    THIRD_PLAN.plan_and_judge(s, &weights::deepening(r, net));
}

/// So few that trees of every shape are measured.
pub fn few(s: &mut Session, r: &mut Random) {
    let n = r.between(1, FEW_SINKS as i64) as usize;
    THIRD_PLAN.plan_and_judge(s, &drawn(r, n));
}

pub fn large(s: &mut Session, r: &mut Random) {
    let n = r.pick(&[64, 65, 100, 200, 200, 512]);
    let net = drawn(r, n);
    let (_, weigh) = r.pick(&WEIGHTS);
    THIRD_PLAN.plan_and_judge(s, &weights::by(r, weigh, net));
}

/// Text and listing as long as they can be, then every weight at the other end.
pub fn longest(s: &mut Session, r: &mut Random) {
    let net = nets::longest(&NANOMETRES);
    THIRD_PLAN.plan_and_judge(s, &net);
    THIRD_PLAN.plan_and_judge(s, &weights::light(net));
    THIRD_PLAN.plan_and_judge(s, &metals::drawn_in(r, &NANOMETRES, nets::extreme, 512));
}

pub fn need(s: &mut Session, r: &mut Random) {
    let n = r.between(1, 24) as usize;
    let net = drawn(r, n);
    THIRD_PLAN.ignoring_need(s, r, net);
}

pub fn mirrored(s: &mut Session, r: &mut Random) {
    THIRD_PLAN.mirrored(s, r);
}

pub fn outputs(s: &mut Session, r: &mut Random) {
    THIRD_PLAN.outputs(s, r);
}

pub fn spoilt_nets(s: &mut Session, r: &mut Random) {
    THIRD_PLAN.spoilt_nets(s, r);
}

pub fn cuts(s: &mut Session, r: &mut Random) {
    THIRD_PLAN.cuts(s, r);
}

/// "The first two plans ignore weights", and so does judge: of two nets alike but
/// for these they give the same, byte for byte.
pub fn ignored(s: &mut Session, r: &mut Random) {
    let n = r.between(1, 30) as usize;
    let mut net = drawn(r, n);
    net.need = r.pick(&[NEED.0, NEED.0, NEED.0, 0, NEED.1]);
    let (_, weigh) = r.pick(&WEIGHTS);
    let other = weights::by(r, weigh, net.clone());
    for other in [other, weights::light(net.clone())] {
        compare_alike(s, &net, &other);
    }
}

fn compare_alike(s: &mut Session, net: &Net, other: &Net) {
    let texts = [net.text(), other.text()];
    let thirds = [0, 1].map(|i| s.plan_weighted(&texts[i], LISTING_LENGTH));
    let [one, two] = [0, 1].map(|i| {
        let first = s.plan(&texts[i], LISTING_LENGTH);
        let short = s.plan_short(&texts[i], LISTING_LENGTH);
        // The first net's third plan is any tree over the other.
        let listings = [first.listing(), short.listing(), thirds[0].listing()];
        let judged = listings.map(|listing| s.judge(&texts[i], listing));
        let plans = [(first.answer, first.out), (short.answer, short.out)];
        (plans, judged)
    });
    s.weighted.pairs += 1;
    s.weighted.differing += u64::from(thirds[0].out != thirds[1].out);
    if one != two {
        let what = "nets alike but for weights have other first plans, short trees or judgements";
        s.disagree(what, &[("net", &texts[0]), ("other net", &texts[1])]);
    }
}
