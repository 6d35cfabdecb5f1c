//! Nets that are planned, and whose plans are judged.

use crate::metals;
use crate::near;
use crate::nets;
use crate::random::Random;
use crate::ranges::NANOMETRES;
use crate::session::Session;
use crate::shapes::{MARKED, METALS, RANGE_END, SHAPES};
use repeater_tree::LISTING_LENGTH;
use second_reference::kraft;
use second_reference::net::{Net, NEED};
use second_reference::slow;

/// Plans, then judges the plan's own bytes: same slack, same wire, best is the
/// slack.
pub fn plan_and_judge(s: &mut Session, net: &Net) {
    let text = net.text();
    let plan = s.plan(&text, LISTING_LENGTH);
    if plan.answer.number != 0 {
        s.expect(
            plan.answer.number == 5,
            "a net in the format is refused",
            plan.answer,
            &text,
            b"",
        );
        return;
    }
    let judged = s.judge(&text, plan.listing());
    let same = (judged.number, judged.slack, judged.wire, judged.last)
        == (0, plan.answer.slack, plan.answer.wire, plan.answer.slack);
    s.expect(
        same,
        "the judge measures a plan otherwise",
        judged,
        &text,
        plan.listing(),
    );
    let best = kraft::maximum(net) == plan.answer.slack as i128;
    s.expect(
        best,
        "a plan's slack is not the Kraft maximum",
        plan.answer,
        &text,
        plan.listing(),
    );
}

pub fn marked(s: &mut Session, _: &mut Random) {
    for (_, text) in MARKED.iter().chain(&METALS).chain(&RANGE_END) {
        let Ok(mut net) = Net::read(text) else {
            s.disagree("the slow reference refuses a marked net", &[("net", text)]);
            continue;
        };
        plan_and_judge(s, &net);
        net.need += 1;
        plan_and_judge(s, &net);
    }
}

pub fn random(s: &mut Session, r: &mut Random) {
    let n = r.between(1, 60) as usize;
    plan_and_judge(s, &metals::drawn(r, nets::common, n));
}

pub fn ties(s: &mut Session, r: &mut Random) {
    let n = r.between(2, 40) as usize;
    plan_and_judge(s, &metals::drawn(r, nets::tied, n));
}

pub fn coincident(s: &mut Session, r: &mut Random) {
    let n = r.between(2, 40) as usize;
    plan_and_judge(s, &metals::drawn(r, nets::coincident, n));
}

pub fn extremes(s: &mut Session, r: &mut Random) {
    let n = if r.once_in(30) {
        512
    } else {
        r.between(1, 40) as usize
    };
    plan_and_judge(s, &metals::drawn(r, nets::extreme, n));
}

pub fn longest(s: &mut Session, _: &mut Random) {
    plan_and_judge(s, &nets::longest(&NANOMETRES));
}

pub fn path_like(s: &mut Session, r: &mut Random) {
    let n = r.pick(&[3, 17, 24, 60, 150]);
    plan_and_judge(s, &metals::drawn(r, nets::path_like, n));
}

/// Mostly within the slow plan's reach, now and then up to the most sinks.
pub fn near_size(r: &mut Random) -> usize {
    match r.index(40) {
        0 => r.between(201, 512) as usize,
        1..=4 => r.between(25, 200) as usize,
        _ => r.between(2, 24) as usize,
    }
}

pub fn few_spots(s: &mut Session, r: &mut Random) {
    let n = near_size(r);
    plan_and_judge(s, &metals::drawn(r, near::few_spots, n));
}

pub fn spread_out(s: &mut Session, r: &mut Random) {
    let n = near_size(r);
    plan_and_judge(s, &metals::drawn(r, near::spread_out, n));
}

pub fn as_near(s: &mut Session, r: &mut Random) {
    let n = near_size(r);
    plan_and_judge(s, &metals::drawn(r, near::as_near, n));
}

pub fn near_root(s: &mut Session, r: &mut Random) {
    let n = near_size(r);
    plan_and_judge(s, &metals::drawn(r, near::near_root, n));
}

pub fn near_full(s: &mut Session, r: &mut Random) {
    plan_and_judge(s, &metals::drawn(r, near::any, 512));
}

pub fn full(s: &mut Session, r: &mut Random) {
    plan_and_judge(s, &nets::any(r, 512));
}

pub fn small(s: &mut Session, r: &mut Random) {
    let n = r.between(1, 24) as usize;
    plan_and_judge(s, &nets::any(r, n));
}

/// Every number from which the edges are tried, on nets of every shape.
pub fn gathered(s: &mut Session, r: &mut Random) {
    let n = r.between(1, slow::MOST_SINKS as i64) as usize;
    let (_, make) = r.pick(&SHAPES);
    let net = metals::drawn(r, make, n);
    plan_and_judge(s, &net);
    s.check_gathered(&net);
}

/// 5 exactly where the need is above the Kraft maximum.
pub fn need(s: &mut Session, r: &mut Random) {
    let n = r.between(1, 50) as usize;
    let mut net = nets::any(r, n);
    let best = kraft::maximum(&net) as i64;
    let far = r.between(NEED.0, NEED.1);
    for need in [
        best,
        best - 1,
        best + 1,
        best - net.branch,
        best + net.branch,
        far,
        NEED.1,
    ] {
        net.need = need.clamp(NEED.0, NEED.1);
        let text = net.text();
        let length = r.pick(&[0, 40, LISTING_LENGTH]);
        let answer = s.plan(&text, length).answer;
        let right = (answer.number == 5) == (best < net.need);
        s.expect(
            right,
            "5 is not given exactly where the need is unreachable",
            answer,
            &text,
            b"",
        );
    }
}

/// 6 exactly where the output is shorter than the listing.
pub fn outputs(s: &mut Session, r: &mut Random) {
    let n = r.pick(&[1, 2, 3, 5, 9, 20, 70]);
    let mut net = nets::any(r, n);
    if r.once_in(6) {
        net.need = NEED.1;
    }
    let text = net.text();
    let exact = s.plan(&text, 2 * LISTING_LENGTH).answer.last as usize;
    let below = r.index(exact.max(1));
    for length in [
        0,
        1,
        exact.saturating_sub(1),
        exact,
        exact + 1,
        exact + 1000,
        below,
    ] {
        let answer = s.plan(&text, length).answer;
        let right = answer.number == 5 || (answer.number == 6) == (length < exact);
        s.expect(
            right,
            "6 is not given exactly where the output is too short",
            answer,
            &text,
            b"",
        );
    }
}
