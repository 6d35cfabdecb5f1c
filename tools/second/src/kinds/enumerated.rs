//! All trees over a few sinks.

use crate::nets;
use crate::random::Random;
use crate::ranges::NANOMETRES;
use crate::session::Session;
use crate::trees;
use repeater_tree::LISTING_LENGTH;
use second_reference::listing::Listing;
use second_reference::net::{Net, COORDINATE};
use second_reference::slow::listing_of;
use second_reference::tree::{fault, worst_slack, Tree};

/// No legal tree, wherever its branch points stand, is better than the
/// library's best, and one with all of them at the root is just as good.
pub fn legal(s: &mut Session, r: &mut Random) {
    let n = r.between(1, 5) as usize;
    let net = nets::any(r, n);
    let text = net.text();
    let plan = s.plan(&text, LISTING_LENGTH);
    let judged = s.judge(&text, plan.listing());
    let best = judged.last;
    let mut reached = false;
    for parent in trees::all_with_right_counts(n) {
        if fault(n, &parent).is_some() {
            continue;
        }
        let tree = trees::at_root(&net, parent.clone());
        reached |= worst_slack(&net, &tree) == best as i128;
        rival(s, &net, &text, &tree, best);
        for reach in [5, COORDINATE] {
            let tree = trees::placed(r, &NANOMETRES, &net, parent.clone(), reach);
            rival(s, &net, &text, &tree, best);
            accepted(s, &net, &text, tree);
        }
        for spread in [1_000_000_000, 1_000_000_000_000_000_000] {
            let tree = trees::placed_beyond(r, &net, parent.clone(), spread);
            rival(s, &net, &text, &tree, best);
        }
    }
    s.expect(
        reached,
        "no tree with all branch points at the root reaches best",
        judged,
        &text,
        b"",
    );
}

fn rival(s: &mut Session, net: &Net, text: &[u8], tree: &Tree, best: i64) {
    s.count().rivals += 1;
    if worst_slack(net, tree) > best as i128 {
        s.disagree(
            &format!("{tree:?} is better than the library's best {best}"),
            &[("net", text)],
        );
    }
}

fn accepted(s: &mut Session, net: &Net, text: &[u8], tree: Tree) {
    let listing = listing_of(net, tree);
    let bytes = listing.text();
    let answer = s.judge(text, &bytes);
    let right =
        (answer.number, answer.slack, answer.wire as i64) == (0, listing.slack, listing.wire);
    s.expect(
        right,
        "a legal tree with its true measures is not accepted",
        answer,
        text,
        &bytes,
    );
}

/// Every assignment of parents, legal or not.
pub fn parents(s: &mut Session, r: &mut Random) {
    let (n, all) = match r.index(6) {
        0 => (1, trees::all_from(1, &[0, 1])),
        1 => (2, trees::all_from(2, &[0, 1, 2, 3])),
        2 | 3 => (3, trees::all_from(3, &[0, 1, 2, 3, 4, 5])),
        4 => (4, trees::all_from(4, &[0, 5, 6, 7])),
        _ => (5, trees::all_with_right_counts(5)),
    };
    let net = nets::any(r, n);
    let text = net.text();
    for parent in all {
        let tree = trees::placed(r, &NANOMETRES, &net, parent, 1000);
        let legal = fault(n, &tree.parent).is_none();
        let listing = stated(&net, tree, legal);
        let answer = s.judge(&text, &listing);
        let right = (answer.number == 0) == legal && (legal || matches!(answer.number, 8..=10));
        let what = "a listing is accepted otherwise than when it is legal";
        s.expect(right, what, answer, &text, &listing);
    }
}

/// True measures where there are any.
fn stated(net: &Net, tree: Tree, legal: bool) -> Vec<u8> {
    if legal {
        return listing_of(net, tree).text();
    }
    Listing {
        slack: 0,
        wire: 0,
        tree,
    }
    .text()
}
