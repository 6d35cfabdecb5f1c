//! The calls in a thread whose stack has little more than they take.

use repeater_tree::{
    delete_pin, judge, plan, plan_short, plan_weighted, score, Plan, Refusal, CAP_LIMIT,
    LISTING_LENGTH, NET_LENGTH, PARTS, STACK, WEIGHT_LIMIT,
};
use std::thread;

/// What the system keeps on a thread's stack and what Rust puts there before
/// the calls: a guard page, thread-local data, the frames down to the closure.
const BESIDE: usize = 8 * 1024;

/// Pins about the root, so that each takes part in the plan.
fn net(sinks: usize) -> Vec<u8> {
    let mut text =
        format!("root=0,0\nbranch=20\nwire=2,3\nneed=-2000000000000000\nsinks={sinks}\n");
    for k in 1..=sinks {
        let weight = 1 + k * 71 % WEIGHT_LIMIT as usize;
        let (x, y, required) = (k * 37 % 1000, k * 91 % 1000, k * 53 % 97);
        text += &format!("sink={x},{y},{required},{weight}\n");
    }
    text.into_bytes()
}

type Planner = fn(&[u8], &mut [u8]) -> Result<Plan, Refusal>;

/// The outputs and the net lie on the heap: they are the caller's, and only what
/// the calls themselves take is tried.
fn plan_judge_score_and_delete(planner: Planner, net: &[u8]) -> (Plan, i64) {
    let mut out = vec![0; LISTING_LENGTH];
    let long = planner(net, &mut out).unwrap();
    let listing = out[..long.bytes].to_vec();
    let exact = planner(net, &mut out[..long.bytes]).unwrap();
    let measures = judge(net, &listing).unwrap();
    assert_eq!((exact, &out[..exact.bytes]), (long, &listing[..]));
    assert_eq!((measures.slack, measures.wire), (long.slack, long.wire));
    let score = score(net, &listing, PARTS, PARTS, CAP_LIMIT).unwrap();
    assert_eq!(score, (long.slack - long.wire as i64) as f64);
    delete(net, &listing, &long);
    (long, measures.best)
}

/// The first sink, where it is not the only one.
fn delete(net: &[u8], listing: &[u8], before: &Plan) {
    let (mut net_out, mut out) = (vec![0; NET_LENGTH], vec![0; LISTING_LENGTH]);
    let found = delete_pin(net, listing, 1, &mut net_out, &mut out);
    if listing.ends_with(b"sinks=1\nleaf=1,0\n") {
        return assert_eq!(found.unwrap_err().number, 16);
    }
    let long = found.unwrap();
    let (net_out, out) = (
        &mut net_out[..long.net_bytes],
        &mut out[..long.listing_bytes],
    );
    let left = (net_out.to_vec(), out.to_vec());
    net_out.fill(0);
    out.fill(0);
    let exact = delete_pin(net, listing, 1, net_out, out).unwrap();
    assert_eq!((exact, &*net_out, &*out), (long, &left.0[..], &left.1[..]));
    let measures = judge(net_out, out).unwrap();
    assert!(measures.slack >= before.slack && measures.wire <= before.wire);
}

fn every_call(sinks: usize) {
    let net = net(sinks);
    let (first, best) = plan_judge_score_and_delete(plan, &net);
    assert_eq!(first.slack, best);
    for planner in [plan_short, plan_weighted] {
        assert_eq!(plan_judge_score_and_delete(planner, &net).1, best);
    }
}

/// On both sides of each size of the arrays.
#[test]
fn every_size_of_net() {
    for sinks in [1, 16, 17, 64, 65, 512] {
        thread::Builder::new()
            .stack_size(STACK + BESIDE)
            .spawn(move || every_call(sinks))
            .unwrap()
            .join()
            .unwrap();
    }
}
