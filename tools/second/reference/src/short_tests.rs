//! Request 6, the short tree: nets worked out by hand, and random ones on both
//! references.

use crate::answer::Answer;
use crate::listing::Listing;
use crate::marked_tests::{a, judge, one, plan, refusal};
use crate::net::{Factors, Net, NEED};
use crate::random_tests::{net_of_round, Random};
use crate::short::Growing;
use crate::tree::{wire, Point, Tree};
use crate::{kraft, plain, short, spanning};

/// What both references answer and write; bytes beyond it are as they were.
fn plan_short(net: &[u8], length: usize) -> (Answer, Vec<u8>) {
    let mut one = vec![200; length];
    let answer = short::plan(net, &mut one);
    for plan in [plain::plan_short, plain::plan_short_trying_all] {
        let mut two = vec![200; length];
        assert_eq!(answer, plan(net, &mut two));
        assert_eq!(one, two);
    }
    assert!(one[answer.last as usize..].iter().all(|&b| b == 200));
    one.truncate(answer.last as usize);
    (answer, one)
}

/// The listing, which judge accepts as it is stated.
fn short_tree(net: &str) -> String {
    let (answer, bytes) = plan_short(net.as_bytes(), 2000);
    assert_eq!(answer.number, 0);
    let text = String::from_utf8(bytes).unwrap();
    let judged = judge(net, &text);
    assert_eq!(judged, Answer::done(answer.slack, answer.wire, judged.last));
    assert!(answer.slack <= judged.last);
    text
}

/// A net with branch points that cost 20, wire that costs 2, and no hurry.
fn net(sinks: &[&str]) -> String {
    let lines: String = sinks.iter().map(|at| format!("sink={at},0,1\n")).collect();
    let n = sinks.len();
    format!("root=0,0\nbranch=20\nwire=2,2\nneed=0\nsinks={n}\n{lines}")
}

/// Sinks 1 and 2 are 10 from the root; 1 goes first. Then 2 adds 6 at 4,0 and 3
/// would add 10. Sink 3 adds 10 on the edge above 1 and on that above 2.
const A_SHORT: &str = "slack=-10\nwire=26\nsinks=3\nleaf=1,5\nleaf=2,4\nleaf=3,5\n\
node=4,0,4,0\nnode=5,4,10,0\n";

/// The first plan of A has a wire of 32 and is just in time; the short tree has
/// 26, and is late by 10 whatever is needed.
#[test]
fn net_a() {
    for need in ["0", "1", "-10", "2000000000000000", "-2000000000000000"] {
        assert_eq!(short_tree(&a(need)), A_SHORT);
    }
    assert_eq!(plan(&a("0")).0.wire, 32);
    assert_eq!(refusal(plan(&a("1")).0), (5, 1, 4));
    let text = a("0");
    let points = spanning::points(&Net::read(text.as_bytes()).unwrap());
    assert_eq!(spanning::least(&points), 30);
}

/// 0 is added everywhere: sink after sink splits the edge above sink 1.
#[test]
fn three_sinks_at_the_root() {
    let text = short_tree(&net(&["0,0", "0,0", "0,0"]));
    assert_eq!(
        text,
        "slack=-40\nwire=0\nsinks=3\nleaf=1,5\nleaf=2,4\nleaf=3,5\nnode=4,0,0,0\nnode=5,4,0,0\n"
    );
}

#[test]
fn one_sink() {
    for need in ["-4", "-3"] {
        let net = format!("root=0,0\nbranch=20\nwire=2,2\nneed={need}\nsinks=1\nsink=3,4,10,1\n");
        assert_eq!(short_tree(&net), "slack=-4\nwire=7\nsinks=1\nleaf=1,0\n");
    }
}

/// Sink 3 is the nearest. Sinks 1 and 2 both add 3 then, and 1 goes first, at
/// 1,0; for sink 2 the edge above 3 is left, at 2,0.
#[test]
fn a_tie_of_sinks() {
    let text = short_tree(&net(&["1,3", "2,-3", "3,0"]));
    assert_eq!(
        text,
        "slack=-50\nwire=9\nsinks=3\nleaf=1,4\nleaf=2,5\nleaf=3,5\nnode=4,0,1,0\nnode=5,4,2,0\n"
    );
}

/// Both are 4 from the root, and the lower number goes first.
#[test]
fn a_tie_for_the_first() {
    let text = short_tree(&net(&["4,0", "0,4"]));
    assert_eq!(
        text,
        "slack=-28\nwire=8\nsinks=2\nleaf=1,3\nleaf=2,3\nnode=3,0,0,0\n"
    );
    let text = short_tree(&net(&["5,5", "-5,0", "5,0"]));
    assert!(text.ends_with("leaf=1,5\nleaf=2,4\nleaf=3,5\nnode=4,0,0,0\nnode=5,4,5,0\n"));
}

/// Sink 3 is nearest to 2,0, where branch point 4 is: the edges above 1, 2 and
/// 4 all add 3, and 1 is the lowest.
#[test]
fn a_tie_of_lower_ends() {
    let text = short_tree(&net(&["2,2", "2,0", "2,-3"]));
    assert_eq!(
        text,
        "slack=-50\nwire=7\nsinks=3\nleaf=1,5\nleaf=2,4\nleaf=3,5\nnode=4,0,2,0\nnode=5,4,2,0\n"
    );
}

/// Sink 3 adds 7 on the edge above branch point 4, and more on every other: the
/// higher number gets the lower below it.
#[test]
fn an_edge_above_a_branch_point() {
    let text = short_tree(&net(&["10,1", "10,-1", "5,7"]));
    assert_eq!(
        text,
        "slack=-62\nwire=19\nsinks=3\nleaf=1,4\nleaf=2,4\nleaf=3,5\nnode=4,5,10,0\nnode=5,0,5,0\n"
    );
}

/// The branch point stands at the median with the edge's own upper end, 4,6: the
/// root, sink 2 and sink 3 have another, 3,6.
#[test]
fn the_median_of_the_edges_ends() {
    let text = short_tree(&net(&["4,0", "4,6", "3,7"]));
    assert_eq!(
        text,
        "slack=-64\nwire=12\nsinks=3\nleaf=1,4\nleaf=2,5\nleaf=3,5\nnode=4,0,4,0\nnode=5,4,4,6\n"
    );
}

/// Sink 3 is reached by 5 across, where 3 is straight, and 7 upward, at 5 each,
/// past two branch points: 100 - 5 - 35 - 2.
#[test]
fn slack_by_the_detour() {
    let net = "root=0,0\nbranch=1\nwire=1,5\nneed=0\nsinks=3\n\
               sink=4,0,100,1\nsink=4,6,100,1\nsink=3,7,100,1\n";
    let text = short_tree(net);
    assert!(text.starts_with("slack=58\nwire=12\n"));
    assert!(text.ends_with("leaf=1,4\nleaf=2,5\nleaf=3,5\nnode=4,0,4,0\nnode=5,4,4,6\n"));
}

/// 6 by one byte and by any number; at the exact length it is written.
#[test]
fn outputs() {
    let net = a("1");
    let net = net.as_bytes();
    for length in 0..A_SHORT.len() {
        assert_eq!(refusal(plan_short(net, length).0), (6, 0, 0));
    }
    for length in [A_SHORT.len(), A_SHORT.len() + 1] {
        assert_eq!(plan_short(net, length).1, A_SHORT.as_bytes());
    }
}

#[test]
fn refused_nets() {
    let refused = |net: &str| refusal(plan_short(net.as_bytes(), 0).0);
    assert_eq!(refused(""), (2, 1, 1));
    assert_eq!(refused(&a("-0")), (2, 1, 4));
    assert_eq!(refused(&a("2000000000000001")), (3, 1, 4));
    assert_eq!(refused(&format!("{}x", a("0"))), (4, 1, 9));
    assert_eq!(refused(&one("0,0", "40000000,1")), (13, 1, 6));
    assert_eq!(refused(&"x".repeat(32_769)), (1, 1, 0));
}

/// The listing is true, as short as every bound says, and nothing leaves the
/// box of the root and the sinks.
fn check(net: &Net) -> Tree {
    let text = String::from_utf8(net.text()).unwrap();
    let listing = short_tree(&text);
    let listing = Listing::read(listing.as_bytes(), net).unwrap();
    let points = spanning::points(net);
    assert!(listing.wire as i128 <= spanning::least(&points));
    assert!(listing.slack as i128 <= kraft::maximum(net));
    let within = |by: fn(&Point) -> i128, v: i128| {
        let all = points.iter().map(by);
        all.clone().min().unwrap() <= v && v <= all.max().unwrap()
    };
    for p in &listing.tree.point {
        assert!(within(|p| p.x, p.x) && within(|p| p.y, p.y));
    }
    listing.tree
}

#[test]
fn both_references_agree() {
    let mut r = Random(6);
    for round in 0..1200 {
        let mut net = net_of_round(&mut r, round);
        net.need = [NEED.0, 0, NEED.1][round % 3];
        check(&net);
    }
}

/// Need, arrivals, c and the factors change the measures alone.
#[test]
fn times_do_not_matter() {
    let mut r = Random(66);
    for round in 0..300 {
        let net = net_of_round(&mut r, round);
        let mut other = net.clone();
        other.wire = Factors::new(10_000, 1);
        other.branch = 1_000_000_000;
        other.sinks.iter_mut().for_each(|s| s.arrival = 7);
        assert_eq!(check(&net), check(&other));
    }
}

/// The tree's wire is the first sink's distance and what each step adds.
#[test]
fn wires_add_up() {
    let mut r = Random(6666);
    for round in 0..300 {
        let net = net_of_round(&mut r, round);
        let n = net.sinks.len();
        let mut growing = Growing::new(&net);
        let first = growing.tree.point[growing.lower_ends[0]];
        let mut sum = net.root.distance(first);
        for new in n + 1..2 * n {
            let (sink, end) = growing.least();
            sum += growing.added(sink, end);
            growing.split(sink, end, new);
        }
        assert_eq!(wire(&growing.tree), sum);
    }
}

/// At every step no point of the box, on any edge and for any waiting sink,
/// adds less than what is chosen.
#[test]
fn no_point_adds_less() {
    let mut r = Random(666);
    for round in 0..60 {
        let net = net_of_round(&mut r, 6 * round);
        let n = net.sinks.len();
        let mut growing = Growing::new(&net);
        for new in n + 1..2 * n {
            let (sink, end) = growing.least();
            let least = least_anywhere(&growing);
            assert_eq!(growing.added(sink, end), least);
            growing.split(sink, end, new);
        }
    }
}

fn least_anywhere(growing: &Growing) -> i128 {
    let near = -12..=12;
    let points = near
        .clone()
        .flat_map(|x| near.clone().map(move |y| Point::new(x, y)));
    let added = |at: Point| {
        let ends = growing.lower_ends.iter();
        ends.flat_map(move |&end| {
            let sinks = growing.waiting.iter();
            sinks.map(move |&sink| growing.added_at(sink, end, at))
        })
    };
    points.flat_map(added).min().unwrap()
}
