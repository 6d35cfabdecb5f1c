//! Each end of the ranges of plan's, judge's and score's figures is reached, and
//! the most wire of a plan by weights; pins are deleted from the trees at the ends.

use repeater_tree::{
    delete_pin, judge, plan, plan_weighted, score, Measures, CAP_LIMIT, LATE_LIMIT, LISTING_LENGTH,
    NET_LENGTH, PARTS,
};

const CORNER: i64 = -100_000_000;
const OPPOSITE: i64 = 100_000_000;

/// Sinks at x,-100000000 with the same required arrival; the root stands in that
/// corner, and branch points and wire cost as much as they may.
fn net(sinks: usize, x: i64, required: i64) -> Vec<u8> {
    let sink = format!("sink={x},{CORNER},{required},1\n");
    let head = format!("root={CORNER},{CORNER}\nbranch=1000000000\nwire=10000,10000\n");
    format!(
        "{head}need=-2000000000000000\nsinks={sinks}\n{}",
        sink.repeat(sinks)
    )
    .into_bytes()
}

fn planned(net: &[u8]) -> Measures {
    let mut out = [0; LISTING_LENGTH];
    let plan = plan(net, &mut out).unwrap();
    judge(net, &out[..plan.bytes]).unwrap()
}

#[test]
fn the_best_slack() {
    assert_eq!(
        planned(&net(1, CORNER, 1_000_000_000_000_000)).best,
        1_000_000_000_000_000
    );
    let lowest = planned(&net(512, CORNER + 40_000_000, -1_000_000_000_000_000));
    assert_eq!(lowest.best, -1_000_409_000_000_000);
    assert_eq!(lowest.slack, lowest.best);
}

/// The listing of 512 sinks with these parents, branch points in the opposite
/// corner where their number of edges from the root is odd, else in the root's.
fn listing(slack: i64, wire: u64, parents: &[usize]) -> Vec<u8> {
    let mut text = format!("slack={slack}\nwire={wire}\nsinks=512\n");
    for (i, parent) in parents.iter().enumerate() {
        let k = i + 1;
        if k <= 512 {
            text += &format!("leaf={k},{parent}\n");
            continue;
        }
        let at = match edges_above(parents, k) % 2 {
            1 => OPPOSITE,
            _ => CORNER,
        };
        text += &format!("node={k},{parent},{at},{at}\n");
    }
    text.into_bytes()
}

fn edges_above(parents: &[usize], k: usize) -> usize {
    std::iter::successors(Some(k), |&k| Some(parents[k - 1]).filter(|&p| p > 0)).count()
}

/// The wire of the tree below: its 511 branch points and 257 of its sinks.
const DEEP_WIRE: u64 = 400_000_000 * (511 + 257);

/// On a path whose 511 branch points stand in the two corners by turns the last
/// sinks are reached by 512 edges from corner to corner. Half of the sinks hang
/// on a branch point in their own corner.
fn deepest() -> Vec<u8> {
    let mut parents: Vec<usize> = (513..=1023).collect();
    parents.push(1023);
    parents.push(0);
    parents.extend(513..1023);
    listing(-3_048_511_000_000_000, DEEP_WIRE, &parents)
}

#[test]
fn the_lowest_slack() {
    let net = net(512, CORNER, -1_000_000_000_000_000);
    let measures = judge(&net, &deepest()).unwrap();
    assert_eq!(
        (measures.slack, measures.wire),
        (-3_048_511_000_000_000, DEEP_WIRE)
    );
}

/// What the longest tree's sinks lose on their ways.
const LOST: i64 = 10_000 * 400_000_000 * 10 + 9 * 1_000_000_000;

/// In a tree of nine full levels all sinks end at even numbers of edges, so
/// that all 1,023 edges run from corner to corner.
fn longest(slack: i64) -> Vec<u8> {
    let mut parents: Vec<usize> = (0..512).map(|k| 768 + k / 2).collect();
    parents.push(0);
    parents.extend((2..512).map(|k| 512 + k / 2));
    listing(slack, 409_200_000_000, &parents)
}

#[test]
fn the_longest_wire() {
    let measures = judge(&net(512, CORNER, 0), &longest(-LOST)).unwrap();
    assert_eq!(measures.wire, 409_200_000_000);
}

/// Slack and wire of the tree that is left.
fn left(net: &[u8], listing: &[u8], sink: usize) -> (i64, u64) {
    let (mut net_out, mut out) = ([0; NET_LENGTH], [0; LISTING_LENGTH]);
    let left = delete_pin(net, listing, sink, &mut net_out, &mut out).unwrap();
    let (net, listing) = (&net_out[..left.net_bytes], &out[..left.listing_bytes]);
    let measures = judge(net, listing).unwrap();
    (measures.slack, measures.wire)
}

/// The last sink's branch point stands in the opposite corner: it goes, with its
/// edge and those of its two sinks, and the one that is left hangs on a branch
/// point in its own corner, past 510 of them. In the longest tree it is the same
/// with any sink, and all but its sibling are as late as before.
#[test]
fn pins_deleted_at_the_ends() {
    let late = net(512, CORNER, -1_000_000_000_000_000);
    let slack = -1_000_000_000_000_000 - 510 * (10_000 * 400_000_000 + 1_000_000_000);
    let edges = 3 * 400_000_000;
    let found = left(&late, &deepest(), 512);
    assert_eq!(found, (slack, DEEP_WIRE - edges));
    for sink in [1, 2, 300, 512] {
        let found = left(&net(512, CORNER, 0), &longest(-LOST), sink);
        assert_eq!(found, (-LOST, 409_200_000_000 - edges));
    }
}

/// The lowest slack that is scored, with the longest wire; and the largest cap,
/// with none.
#[test]
fn the_ends_of_scores() {
    let late = net(512, CORNER, LOST - LATE_LIMIT);
    let lowest = score(&late, &longest(-LATE_LIMIT), PARTS, PARTS, 0);
    assert_eq!(lowest, Ok(-1_409_200_000_000.0));
    let early = net(1, CORNER, 1_000_000_000_000_000);
    let straight = b"slack=1000000000000000\nwire=0\nsinks=1\nleaf=1,0\n";
    let highest = score(&early, straight, PARTS, PARTS, CAP_LIMIT);
    assert_eq!(highest, Ok(1_000_000_000_000.0));
}

/// Pins on both sides of the root by turns, as far off as they may stand: sinks
/// of equal weight are joined two by two, and every branch point settles at the
/// root.
#[test]
fn the_longest_wire_by_weights() {
    let mut net = "root=0,0\nbranch=20\nwire=2,2\nneed=0\nsinks=512\n".to_string();
    net += &"sink=-40000000,0,0,1\nsink=40000000,0,0,1\n".repeat(256);
    let mut out = [0; LISTING_LENGTH];
    let weighted = plan_weighted(net.as_bytes(), &mut out).unwrap();
    let measures = judge(net.as_bytes(), &out[..weighted.bytes]).unwrap();
    assert_eq!(weighted.wire, 20_480_000_000);
    assert_eq!(
        (measures.slack, measures.wire),
        (weighted.slack, weighted.wire)
    );
}
