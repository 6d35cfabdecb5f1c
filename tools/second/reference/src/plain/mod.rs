//! All three plans, judge, score and the deletion of a pin as a competent engineer
//! would write them, quadratic in the sinks, the short tree on most nets, the third
//! plan, the score and the deletion less: the reference for large nets and the
//! baseline of the benchmark.

mod delete;
mod grow;
mod read;
mod score;
mod short;
mod text;
mod tree;
mod weighted;

use crate::answer::{Answer, Deletion, Refusal, Score};
use crate::terms::Terms;
use read::Point;

pub fn plan(net: &[u8], out: &mut [u8]) -> Answer {
    Answer::of(try_plan(net, out))
}

fn try_plan(net: &[u8], out: &mut [u8]) -> Result<(i64, u64, i64), Refusal> {
    let net = read::net(net)?;
    let grown = grow::grow(&net);
    if grown.worst < net.need {
        return Err(Refusal {
            number: 5,
            text: 1,
            line: 4,
        });
    }
    let points = tree::settle(&net, &grown.parent);
    write(grown.worst, &grown.parent, &points, out)
}

fn write(
    slack: i64,
    parent: &[usize],
    points: &[Point],
    out: &mut [u8],
) -> Result<(i64, u64, i64), Refusal> {
    let wire = tree::wire(parent, points);
    let text = text::listing(slack, wire, parent, points);
    if out.len() < text.len() {
        return Err(Refusal {
            number: 6,
            text: 0,
            line: 0,
        });
    }
    out[..text.len()].copy_from_slice(&text);
    Ok((slack, wire as u64, text.len() as i64))
}

/// The short tree.
pub fn plan_short(net: &[u8], out: &mut [u8]) -> Answer {
    Answer::of(try_plan_short(net, out, short::grow))
}

/// The same by the plainest way of all, cubic in the sinks: for the benchmark.
pub fn plan_short_trying_all(net: &[u8], out: &mut [u8]) -> Answer {
    Answer::of(try_plan_short(net, out, short::grow_trying_all))
}

fn try_plan_short(
    net: &[u8],
    out: &mut [u8],
    grow: fn(&read::Net) -> short::Grown,
) -> Result<(i64, u64, i64), Refusal> {
    let net = read::net(net)?;
    let short::Grown { parent, points } = grow(&net);
    let order = tree::top_down(net.sinks(), &parent).expect("a grown tree is legal");
    let slack = tree::worst_slack(&net, &parent, &points, &order);
    write(slack, &parent, &points, out)
}

/// The third plan.
pub fn plan_weighted(net: &[u8], out: &mut [u8]) -> Answer {
    Answer::of(try_plan_weighted(net, out))
}

fn try_plan_weighted(net: &[u8], out: &mut [u8]) -> Result<(i64, u64, i64), Refusal> {
    let net = read::net(net)?;
    let weighted::Joined { parent, points } = weighted::join(&net);
    let order = weighted::top_down(net.sinks());
    let slack = tree::worst_slack(&net, &parent, &points, &order);
    write(slack, &parent, &points, out)
}

pub fn judge(net: &[u8], listing: &[u8]) -> Answer {
    Answer::of(try_judge(net, listing))
}

fn try_judge(net: &[u8], listing: &[u8]) -> Result<(i64, u64, i64), Refusal> {
    let net = read::net(net)?;
    let (slack, wire) = measured(&net, listing)?;
    Ok((slack, wire as u64, grow::best(&net)))
}

/// Slack and wire of a listing that is accepted.
fn measured(net: &read::Net, listing: &[u8]) -> Result<(i64, i64), Refusal> {
    let listing = accepted(net, listing)?;
    Ok((listing.slack, listing.wire))
}

/// The listing, if it is legal and states its slack and wire as they are.
fn accepted(net: &read::Net, listing: &[u8]) -> Result<read::Listing, Refusal> {
    let listing = read::listing(listing, net)?;
    let order = tree::top_down(net.sinks(), &listing.parent)?;
    let slack = tree::worst_slack(net, &listing.parent, &listing.points, &order);
    if slack != listing.slack {
        return Err(Refusal {
            number: 11,
            text: 2,
            line: 1,
        });
    }
    let wire = tree::wire(&listing.parent, &listing.points);
    if wire != listing.wire {
        return Err(Refusal {
            number: 12,
            text: 2,
            line: 2,
        });
    }
    Ok(listing)
}

/// The router's score.
pub fn score(net: &[u8], listing: &[u8], terms: Terms) -> Score {
    Score::of(try_score(net, listing, terms).map(f64::to_bits))
}

fn try_score(net: &[u8], listing: &[u8], terms: Terms) -> Result<f64, Refusal> {
    let net = read::net(net)?;
    let (slack, wire) = measured(&net, listing)?;
    score::score(slack, wire, terms)
}

/// The deletion of a pin.
pub fn delete_pin(
    net: &[u8],
    listing: &[u8],
    sink: usize,
    net_out: &mut [u8],
    listing_out: &mut [u8],
) -> Deletion {
    let texts = try_delete_pin(net, listing, sink);
    Deletion::of(texts.and_then(|(net, listing)| {
        if net_out.len() < net.len() || listing_out.len() < listing.len() {
            return delete::refuse(6);
        }
        net_out[..net.len()].copy_from_slice(&net);
        listing_out[..listing.len()].copy_from_slice(&listing);
        Ok((net.len(), listing.len()))
    }))
}

/// The shorter net's text and its listing's.
fn try_delete_pin(net: &[u8], listing: &[u8], sink: usize) -> Result<(Vec<u8>, Vec<u8>), Refusal> {
    let mut net = read::net(net)?;
    let mut tree = accepted(&net, listing)?;
    delete::delete(&mut net, &mut tree, sink)?;
    let read::Listing { parent, points, .. } = tree;
    let order = tree::top_down(net.sinks(), &parent).expect("what is left is legal");
    let slack = tree::worst_slack(&net, &parent, &points, &order);
    let wire = tree::wire(&parent, &points);
    let listing = text::listing(slack, wire, &parent, &points);
    Ok((text::net(&net), listing))
}
