//! The deletion of a pin word by word, as 02's request 9 has it: the tree becomes
//! vertices that hold what hangs on them and keep their old numbers until all are
//! numbered anew; the net's text loses a line.

use crate::answer::{Deletion, Refusal};
use crate::listing::Listing;
use crate::net::Net;
use crate::slow::{listing_of, try_judge};
use crate::tree::{children, Point, Tree};

/// Where the net's text has its line `sinks=n`, counted from 0; the sinks' follow.
const COUNT_LINE: usize = 4;

pub fn delete_pin(
    net: &[u8],
    listing: &[u8],
    sink: usize,
    net_out: &mut [u8],
    listing_out: &mut [u8],
) -> Deletion {
    let shorter = try_delete_pin(net, listing, sink, (net_out.len(), listing_out.len()));
    Deletion::of(shorter.map(|(net, listing)| {
        net_out[..net.len()].copy_from_slice(&net);
        listing_out[..listing.len()].copy_from_slice(&listing);
        (net.len(), listing.len())
    }))
}

/// "they are tried in this order after judge's refusals, then 6 if either output
/// is too short"
fn try_delete_pin(
    net: &[u8],
    listing: &[u8],
    sink: usize,
    room: (usize, usize),
) -> Result<(Vec<u8>, Vec<u8>), Refusal> {
    try_judge(net, listing)?;
    let read = Net::read(net)?;
    let n = read.sinks.len();
    if sink < 1 || sink > n {
        return Err(refusal(15));
    }
    if n == 1 {
        return Err(refusal(16));
    }
    let tree = Listing::read(listing, &read)?.tree;
    let net = without_line(net, n, sink);
    let listing = listing_of(&Net::read(&net)?, without_sink(&tree, sink)).text();
    if room.0 < net.len() || room.1 < listing.len() {
        return Err(refusal(6));
    }
    Ok((net, listing))
}

fn refusal(number: u8) -> Refusal {
    Refusal {
        number,
        text: 0,
        line: 0,
    }
}

/// Of the net's text only the number of sinks changes, and the sink's line goes.
fn without_line(net: &[u8], n: usize, sink: usize) -> Vec<u8> {
    let mut lines: Vec<Vec<u8>> = net.split_inclusive(|&b| b == 10).map(Vec::from).collect();
    lines[COUNT_LINE] = format!("sinks={}\n", n - 1).into_bytes();
    lines.remove(COUNT_LINE + sink);
    lines.concat()
}

fn without_sink(tree: &Tree, sink: usize) -> Tree {
    let children = children(tree, 1..tree.parent.len());
    let root = Vertex::of(tree, &children, 0);
    numbered_anew(&root.without(sink).expect("the root stays"))
}

/// By its old number, with all that hangs on it.
struct Vertex {
    number: usize,
    at: Point,
    below: Vec<Vertex>,
}

impl Vertex {
    fn of(tree: &Tree, children: &[Vec<usize>], number: usize) -> Vertex {
        let below = children[number].iter();
        Vertex {
            number,
            at: tree.point[number],
            below: below.map(|&v| Vertex::of(tree, children, v)).collect(),
        }
    }

    /// "its branch point goes too, the sibling takes that place in the tree, no
    /// point moves"
    fn without(self, sink: usize) -> Option<Vertex> {
        if self.number == sink {
            return None;
        }
        let is_branch_point = self.below.len() == 2;
        let below = self.below.into_iter();
        let mut below: Vec<Vertex> = below.filter_map(|v| v.without(sink)).collect();
        if is_branch_point && below.len() == 1 {
            return below.pop();
        }
        Some(Vertex { below, ..self })
    }

    /// Itself and all below it, each with its parent's old number.
    fn all(&self, parent: usize) -> Vec<(usize, usize, Point)> {
        let mut all = vec![(self.number, parent, self.at)];
        all.extend(self.below.iter().flat_map(|v| v.all(self.number)));
        all
    }
}

/// "vertex numbers close up without holes in their old order"
fn numbered_anew(root: &Vertex) -> Tree {
    let mut all = root.all(0);
    all.sort_by_key(|&(number, ..)| number);
    let place = |old: usize| all.iter().position(|&(number, ..)| number == old);
    let parent = |&(_, parent, _): &(usize, usize, Point)| place(parent).expect("it stays");
    Tree {
        parent: all.iter().map(parent).collect(),
        point: all.iter().map(|&(_, _, at)| at).collect(),
    }
}
