//! The short tree (02, request 6): nets whose places tie, needs that nobody
//! reaches, outputs of every length, damaged nets.

use super::further::{drawn, Further};
use crate::metals;
use crate::nets;
use crate::random::Random;
use crate::ranges::NANOMETRES;
use crate::session::Session;
use crate::shapes::{MARKED, METALS, RANGE_END, SHAPES, SHORT};
use crate::short::FEW_SINKS;
use crate::streets;

const SHORT_TREE: Further = Further {
    name: "short tree",
    plan: Session::plan_short,
    check: Session::check_bounds,
    unreachable: |s| &mut s.shorts.unreachable,
};

pub fn marked(s: &mut Session, r: &mut Random) {
    let all = MARKED.iter().chain(&METALS).chain(&RANGE_END).chain(&SHORT);
    SHORT_TREE.given(s, r, all);
}

/// Mostly small, on every shape whose times are of a kind.
pub fn random(s: &mut Session, r: &mut Random) {
    let n = r.between(1, 40) as usize;
    let (_, make) = r.pick(&SHAPES);
    SHORT_TREE.plan_and_judge(s, &metals::drawn(r, make, n));
}

pub fn ties(s: &mut Session, r: &mut Random) {
    let n = r.between(2, 40) as usize;
    SHORT_TREE.plan_and_judge(s, &metals::drawn(r, streets::grid, n));
}

/// On every shape whose places are of a kind.
pub fn streets(s: &mut Session, r: &mut Random) {
    let n = r.between(1, 40) as usize;
    SHORT_TREE.plan_and_judge(s, &metals::drawn(r, streets::any, n));
}

/// So few that every spanning tree is measured.
pub fn few(s: &mut Session, r: &mut Random) {
    let n = r.between(1, FEW_SINKS as i64) as usize;
    SHORT_TREE.plan_and_judge(s, &drawn(r, n));
}

pub fn large(s: &mut Session, r: &mut Random) {
    let n = r.pick(&[64, 65, 100, 200, 200, 512]);
    SHORT_TREE.plan_and_judge(s, &drawn(r, n));
}

/// Text and listing as long as they can be.
pub fn longest(s: &mut Session, r: &mut Random) {
    SHORT_TREE.plan_and_judge(s, &nets::longest(&NANOMETRES));
    SHORT_TREE.plan_and_judge(s, &metals::drawn_in(r, &NANOMETRES, nets::extreme, 512));
}

pub fn need(s: &mut Session, r: &mut Random) {
    let n = r.between(1, 24) as usize;
    let net = drawn(r, n);
    SHORT_TREE.ignoring_need(s, r, net);
}

pub fn mirrored(s: &mut Session, r: &mut Random) {
    SHORT_TREE.mirrored(s, r);
}

pub fn outputs(s: &mut Session, r: &mut Random) {
    SHORT_TREE.outputs(s, r);
}

pub fn spoilt_nets(s: &mut Session, r: &mut Random) {
    SHORT_TREE.spoilt_nets(s, r);
}

pub fn cuts(s: &mut Session, r: &mut Random) {
    SHORT_TREE.cuts(s, r);
}
