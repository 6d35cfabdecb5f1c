//! Plan and judge word by word: every candidate tree is built and measured.

use crate::answer::{Answer, Refusal};
use crate::insertion;
use crate::kraft;
use crate::listing::Listing;
use crate::net::Net;
use crate::tree::{fault, wire, worst_slack, Fault, Tree};

/// Beyond this many sinks the slow plan takes too long for many nets.
pub const MOST_SINKS: usize = 24;

pub fn plan(net: &[u8], out: &mut [u8]) -> Answer {
    plan_by(planned, net, out)
}

/// Plan by whichever planner makes the tree.
pub fn plan_by(planned: fn(&Net) -> Tree, net: &[u8], out: &mut [u8]) -> Answer {
    Answer::of(try_plan(planned, net, out))
}

fn try_plan(
    planned: fn(&Net) -> Tree,
    net: &[u8],
    out: &mut [u8],
) -> Result<(i64, u64, i64), Refusal> {
    let net = Net::read(net)?;
    if kraft::maximum(&net) < net.need as i128 {
        return Err(Refusal {
            number: 5,
            text: 1,
            line: 4,
        });
    }
    written(&net, planned(&net), out)
}

/// The tree's listing in the output's front, if there is room.
pub fn written(net: &Net, tree: Tree, out: &mut [u8]) -> Result<(i64, u64, i64), Refusal> {
    let listing = listing_of(net, tree);
    let text = listing.text();
    if out.len() < text.len() {
        return Err(Refusal {
            number: 6,
            text: 0,
            line: 0,
        });
    }
    out[..text.len()].copy_from_slice(&text);
    Ok((listing.slack, listing.wire as u64, text.len() as i64))
}

/// The tree with its true measures stated.
pub fn listing_of(net: &Net, tree: Tree) -> Listing {
    let slack = worst_slack(net, &tree) as i64;
    Listing {
        slack,
        wire: wire(&tree) as i64,
        tree,
    }
}

/// The first plan's tree, settled.
pub fn planned(net: &Net) -> Tree {
    insertion::planned(net, |i| i.best_end(|v| i.measured(v)))
}

pub fn judge(net: &[u8], listing: &[u8]) -> Answer {
    Answer::of(try_judge(net, listing))
}

/// Slack, wire and best.
pub fn try_judge(net: &[u8], listing: &[u8]) -> Result<(i64, u64, i64), Refusal> {
    let net = Net::read(net)?;
    let listing = Listing::read(listing, &net)?;
    let refuse = |number, line| {
        Err(Refusal {
            number,
            text: 2,
            line,
        })
    };
    match fault(net.sinks.len(), &listing.tree.parent) {
        Some(Fault::SinkParent(v)) => return refuse(8, v + 3),
        Some(Fault::RootChildren) => return refuse(9, 0),
        Some(Fault::BranchChildren(v)) => return refuse(9, v + 3),
        Some(Fault::Unreached(v)) => return refuse(10, v + 3),
        None => {}
    }
    if worst_slack(&net, &listing.tree) != listing.slack as i128 {
        return refuse(11, 1);
    }
    if wire(&listing.tree) != listing.wire as i128 {
        return refuse(12, 2);
    }
    Ok((
        listing.slack,
        listing.wire as u64,
        kraft::maximum(&net) as i64,
    ))
}
