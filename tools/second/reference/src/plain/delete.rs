//! A pin's deletion in place, on the arrays that were read.

use super::read::{Listing, Net};
use crate::answer::Refusal;

/// Leaves the slack and the wire that the listing states.
pub fn delete(net: &mut Net, listing: &mut Listing, sink: usize) -> Result<(), Refusal> {
    let n = net.sinks();
    if !(1..=n).contains(&sink) {
        return refuse(15);
    }
    if n == 1 {
        return refuse(16);
    }
    net.points.remove(sink);
    net.arrivals.remove(sink);
    net.weights.remove(sink);
    let branch_point = splice(&mut listing.parent, sink);
    // The branch point first: it comes after the sink.
    for gone in [branch_point, sink] {
        listing.points.remove(gone);
        close_up(&mut listing.parent, gone);
    }
    Ok(())
}

/// Hangs the sibling where their branch point hangs, which is told.
fn splice(parent: &mut [usize], sink: usize) -> usize {
    let branch_point = parent[sink];
    let above = parent[branch_point];
    for (v, p) in parent.iter_mut().enumerate().skip(1) {
        if *p == branch_point && v != sink {
            *p = above;
        }
    }
    branch_point
}

/// Without this vertex: the numbers above its own fall by 1.
fn close_up(parent: &mut Vec<usize>, gone: usize) {
    parent.remove(gone);
    for p in parent {
        *p -= usize::from(*p > gone);
    }
}

pub fn refuse<T>(number: u8) -> Result<T, Refusal> {
    Err(Refusal {
        number,
        text: 0,
        line: 0,
    })
}
