//! What request 9 says of every shorter net and its tree, held to the ones before
//! without deleting anything.

use second_reference::listing::Listing;
use second_reference::net::Net;
use second_reference::tree::{slack, wire, Tree};

/// A net and an accepted listing, read.
pub struct Read {
    pub net: Net,
    pub tree: Tree,
}

impl Read {
    pub fn of(net: &[u8], listing: &[u8]) -> Option<Read> {
        let net = Net::read(net).ok()?;
        let tree = Listing::read(listing, &net).ok()?.tree;
        Some(Read { net, tree })
    }

    /// The sink's, of more than one.
    pub fn branch_point(&self, sink: usize) -> usize {
        self.tree.parent[sink]
    }

    pub fn sibling(&self, sink: usize) -> Option<usize> {
        let parent = &self.tree.parent;
        (1..parent.len()).find(|&v| v != sink && parent[v] == parent[sink])
    }
}

/// The first thing that should hold and does not.
pub fn fault(before: &Read, sink: usize, after: &Read) -> Option<&'static str> {
    let gone = before.branch_point(sink);
    // By its new number each vertex that stays: "in their old order".
    let stays = |&v: &usize| v != sink && v != gone;
    let old: Vec<usize> = (0..before.tree.parent.len()).filter(stays).collect();
    if !is_net_without(&before.net, sink, &after.net) {
        return Some("the net is not the one before without the sink");
    }
    if !(1..old.len()).all(|v| before.tree.point[old[v]] == after.tree.point[v]) {
        return Some("a point moves");
    }
    if !(1..old.len()).all(|v| hangs_as_before(&before.tree, gone, &old, &after.tree, v)) {
        return Some("a vertex hangs otherwise");
    }
    let slacks = |k: usize| {
        let was = slack(&before.net, &before.tree, old[k]);
        (was, slack(&after.net, &after.tree, k))
    };
    let loses = |(was, is)| is < was;
    if (1..=after.net.sinks.len()).map(slacks).any(loses) {
        return Some("a remaining sink loses slack");
    }
    (wire(&after.tree) > wire(&before.tree)).then_some("wire grows")
}

/// The root, c, both factors, need, and the other sinks with their weights.
fn is_net_without(before: &Net, sink: usize, after: &Net) -> bool {
    let mut other = before.clone();
    other.sinks.remove(sink - 1);
    other == *after
}

/// On the same vertex, or the sibling where the branch point hung.
fn hangs_as_before(before: &Tree, gone: usize, old: &[usize], after: &Tree, v: usize) -> bool {
    let was = before.parent[old[v]];
    let due = if was == gone {
        before.parent[gone]
    } else {
        was
    };
    old.get(after.parent[v]) == Some(&due)
}

#[cfg(test)]
mod tests {
    use super::*;
    use crate::planners::{tree_of, PLAIN};
    use crate::shapes::MARKED;
    use second_reference::tree::Point;

    fn net_a() -> Read {
        let net = Net::read(MARKED[0].1).unwrap();
        let tree = tree_of(&net, PLAIN).unwrap();
        Read { net, tree }
    }

    /// Net A without sink 3: branch point 4 goes, and 5 hangs on the root.
    fn without_third() -> Read {
        let mut after = net_a();
        after.net.sinks.pop();
        let point = &mut after.tree.point;
        point.drain(3..5);
        after.tree.parent = vec![0, 3, 3, 0];
        after
    }

    #[test]
    fn the_tree_that_is_kept() {
        assert_eq!(fault(&net_a(), 3, &without_third()), None);
        assert_eq!(net_a().sibling(3), Some(5));
        assert_eq!(net_a().sibling(1), Some(2));
    }

    /// A need, a weight, a point, a parent, another sink that goes.
    #[test]
    fn what_is_not_kept() {
        let told = |spoil: fn(&mut Read)| {
            let mut after = without_third();
            spoil(&mut after);
            fault(&net_a(), 3, &after)
        };
        let net = Some("the net is not the one before without the sink");
        assert_eq!(told(|after| after.net.need = 1), net);
        assert_eq!(told(|after| after.net.sinks[1].weight = 2), net);
        assert_eq!(fault(&net_a(), 2, &without_third()), net);
        let moved = told(|after| after.tree.point[3] = Point::new(4, 1));
        assert_eq!(moved, Some("a point moves"));
        let hung = told(|after| after.tree.parent[2] = 0);
        assert_eq!(hung, Some("a vertex hangs otherwise"));
    }
}
