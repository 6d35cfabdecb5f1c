//! Request 7, switching weights: nets worked out by hand, the sink's line, and
//! random nets on both references.

use crate::answer::Answer;
use crate::listing::Listing;
use crate::marked_tests::{a, judge, one, plan, refusal, told};
use crate::net::{Factors, Net, NEED};
use crate::random_tests::{weighed, Random};
use crate::tree::{path, Tree};
use crate::{kraft, plain, short, slow, weighted};

/// What both references answer and write; bytes beyond it are as they were.
fn plan_weighted(net: &[u8], length: usize) -> (Answer, Vec<u8>) {
    let (mut one, mut two) = (vec![200; length], vec![200; length]);
    let answer = weighted::plan(net, &mut one);
    assert_eq!(answer, plain::plan_weighted(net, &mut two));
    assert_eq!(one, two);
    assert!(one[answer.last as usize..].iter().all(|&b| b == 200));
    one.truncate(answer.last as usize);
    (answer, one)
}

/// The listing, which judge accepts as it is stated.
fn weighted_tree(net: &str) -> String {
    let (answer, bytes) = plan_weighted(net.as_bytes(), 2000);
    assert_eq!(answer.number, 0);
    let text = String::from_utf8(bytes).unwrap();
    let judged = judge(net, &text);
    assert_eq!(judged, Answer::done(answer.slack, answer.wire, judged.last));
    assert!(answer.slack <= judged.last);
    text
}

/// A net with branch points that cost 20, wire that costs 2, and no hurry.
fn net(sinks: &[(&str, i64)]) -> String {
    let line = |(at, weight): &(&str, i64)| format!("sink={at},0,{weight}\n");
    let lines: String = sinks.iter().map(line).collect();
    let n = sinks.len();
    format!("root=0,0\nbranch=20\nwire=2,2\nneed=0\nsinks={n}\n{lines}")
}

/// The parents of vertices 1 to 2n-1 over sinks of these weights.
fn parents(weights: &[i64]) -> Vec<usize> {
    let sinks: Vec<(&str, i64)> = weights.iter().map(|&w| ("3,4", w)).collect();
    let text = net(&sinks);
    let listing = weighted_tree(&text);
    let net = Net::read(text.as_bytes()).unwrap();
    let tree = Listing::read(listing.as_bytes(), &net).unwrap().tree;
    tree.parent[1..].to_vec()
}

/// 1 and 2 make 6 of weight 2; sink 3 of weight 2 goes before 6, and they make 7
/// of 4; sink 4 and 7 make 8 of 7, sink 5 and 8 make 9.
#[test]
fn fibonacci() {
    assert_eq!(parents(&[1, 1, 2, 3, 5]), [6, 6, 7, 8, 9, 7, 8, 9, 0]);
}

/// 2 and 3 make 5 of weight 3. Three have weight 3 then: 1 and 4 are the lowest.
#[test]
fn a_sink_goes_before_a_joined_vertex() {
    assert_eq!(parents(&[3, 1, 2, 3]), [6, 5, 5, 6, 7, 7, 0]);
}

#[test]
fn equal_weights() {
    for weight in [1, 7, 1000] {
        assert_eq!(parents(&[weight; 4]), [5, 5, 6, 6, 7, 7, 0]);
        assert_eq!(parents(&[weight; 3]), [4, 4, 5, 5, 0]);
        assert_eq!(parents(&[weight; 2]), [3, 3, 0]);
    }
}

/// The lightest is written last, and joined with the lowest of three that tie.
#[test]
fn the_lightest_goes_with_the_lowest() {
    assert_eq!(parents(&[2, 2, 2, 1]), [5, 6, 6, 5, 7, 7, 0]);
    assert_eq!(parents(&[1000, 1, 1]), [5, 4, 4, 5, 0]);
}

/// 8, 9 and 10 of weight 2 tie: 8 and 9 make 11 of 4. Then 10 is the lightest, and
/// sink 7 of 3 goes with it.
#[test]
fn joined_vertices_that_tie() {
    assert_eq!(
        parents(&[1, 1, 1, 1, 1, 1, 3]),
        [8, 8, 9, 9, 10, 10, 12, 11, 11, 12, 13, 13, 0]
    );
}

#[test]
fn one_sink() {
    for need in ["-4", "-3"] {
        for weight in [1, 1000] {
            let net = format!(
                "root=0,0\nbranch=20\nwire=2,2\nneed={need}\nsinks=1\nsink=3,4,10,{weight}\n"
            );
            let listing = "slack=-4\nwire=7\nsinks=1\nleaf=1,0\n";
            assert_eq!(weighted_tree(&net), listing);
        }
    }
}

/// 1 and 2 make 4, at the median of 0,0 and 10,0 and 4,6; 3 and 4 make 5, at
/// that of 0,0 and 10,10 and 4,0. Sink 2 is the worst, 60 - 20 - 40.
const A_WEIGHTED: &str = "slack=0\nwire=32\nsinks=3\nleaf=1,4\nleaf=2,4\nleaf=3,5\n\
node=4,5,4,0\nnode=5,0,4,0\n";

/// A's weights are all 1; its need is not looked at.
#[test]
fn net_a() {
    for need in ["0", "1", "-10", "2000000000000000", "-2000000000000000"] {
        assert_eq!(weighted_tree(&a(need)), A_WEIGHTED);
    }
    assert_eq!(refusal(plan(&a("1")).0), (5, 1, 4));
}

/// A's sink 1 is the heaviest: 2 and 3 make 4, at 4,6, and 5 stands at 4,0. Sink
/// 3 is the worst, 70 - 40 - 40.
#[test]
fn a_heavy_sink() {
    let net = a("0").replace("100,1\n", "100,3\n");
    assert_eq!(
        weighted_tree(&net),
        "slack=-10\nwire=26\nsinks=3\nleaf=1,5\nleaf=2,4\nleaf=3,4\n\
         node=4,5,4,6\nnode=5,0,4,0\n"
    );
}

#[test]
fn three_sinks_at_the_root() {
    let text = weighted_tree(&net(&[("0,0", 1), ("0,0", 1), ("0,0", 1)]));
    assert_eq!(
        text,
        "slack=-40\nwire=0\nsinks=3\nleaf=1,4\nleaf=2,4\nleaf=3,5\nnode=4,5,0,0\nnode=5,0,0,0\n"
    );
}

/// 6 by one byte and by any number; at the exact length it is written.
#[test]
fn outputs() {
    let net = a("1");
    let net = net.as_bytes();
    for length in 0..A_WEIGHTED.len() {
        assert_eq!(refusal(plan_weighted(net, length).0), (6, 0, 0));
    }
    for length in [A_WEIGHTED.len(), A_WEIGHTED.len() + 1] {
        assert_eq!(plan_weighted(net, length).1, A_WEIGHTED.as_bytes());
    }
}

/// By all three plans and by judge.
fn told_by_all(net: &str) -> (u8, u8, usize) {
    let told = told(net);
    let same = |answer: Answer| assert_eq!((answer.number, answer.text, answer.line), told);
    same(plan_weighted(net.as_bytes(), 2000).0);
    for plan in [short::plan, plain::plan_short] {
        same(plan(net.as_bytes(), &mut [0; 2000]));
    }
    told
}

#[test]
fn refused_nets() {
    assert_eq!(told_by_all(""), (2, 1, 1));
    assert_eq!(told_by_all(&a("-0")), (2, 1, 4));
    assert_eq!(told_by_all(&a("2000000000000001")), (3, 1, 4));
    assert_eq!(told_by_all(&format!("{}x", a("0"))), (4, 1, 9));
    assert_eq!(told_by_all(&one("0,0", "40000000,1")), (13, 1, 6));
    assert_eq!(told_by_all(&"x".repeat(32_769)), (1, 1, 0));
}

/// A with the end of sink 2's line so spelt.
fn line_7(end: &str) -> (u8, u8, usize) {
    told_by_all(&a("0").replace("60,1\n", &format!("60{end}\n")))
}

#[test]
fn a_line_of_four_numbers() {
    for weight in [1, 2, 999, 1000] {
        assert_eq!(line_7(&format!(",{weight}")), (0, 0, 0));
    }
    let long = "9".repeat(9000);
    for weight in ["0", "1001", "-1", "-1000", "65537", "4294967297", &long] {
        assert_eq!(line_7(&format!(",{weight}")), (3, 1, 7), "{weight}");
    }
    for end in [
        "", ",", ",,1", ",1,", ",1,1", ",01", ",-0", ",+1", ", 1", ",1 ", ",1\r", ";1", ",x",
        ",1.0",
    ] {
        assert_eq!(line_7(end), (2, 1, 7), "{end}");
    }
}

/// The first line that lacks it is told; 3 of the weight goes before 13.
#[test]
fn a_line_without_its_weight() {
    let old = a("0").replace(",1\n", "\n");
    assert_eq!(told_by_all(&old), (2, 1, 6));
    let far = a("0").replace("=4,6,60,1", "=40000000,1,60,0");
    assert_eq!(told_by_all(&far), (3, 1, 7));
    assert_eq!(told_by_all(&far.replace(",60,0", ",60")), (2, 1, 7));
    assert_eq!(told_by_all(&far.replace(",60,0", ",60,1000")), (13, 1, 7));
    assert_eq!(told_by_all(&far.replace("70,1\n", "70\n")), (3, 1, 7));
}

/// The listing is true, and every branch point's number is above its children's.
fn check(net: &Net) -> Tree {
    let text = String::from_utf8(net.text()).unwrap();
    let listing = weighted_tree(&text);
    let listing = Listing::read(listing.as_bytes(), net).unwrap();
    assert!(listing.slack as i128 <= kraft::maximum(net));
    let parent = &listing.tree.parent;
    assert!((1..parent.len() - 1).all(|v| parent[v] > v));
    listing.tree
}

#[test]
fn both_references_agree() {
    let mut r = Random(70);
    for round in 0..1200 {
        let mut net = weighed(&mut r, round);
        net.need = [NEED.0, 0, NEED.1][round % 3];
        check(&net);
    }
}

/// Times and places change the measures and points alone.
#[test]
fn weights_decide_the_parents() {
    let mut r = Random(71);
    for round in 0..300 {
        let net = weighed(&mut r, round);
        let mut other = net.clone();
        other.wire = Factors::new(10_000, 1);
        other.branch = 1_000_000_000;
        for sink in &mut other.sinks {
            (sink.arrival, sink.at) = (7, net.root);
        }
        assert_eq!(check(&net).parent, check(&other).parent);
    }
}

/// "The first two plans ignore weights", and so does judge.
#[test]
fn other_calls_ignore_weights() {
    let mut r = Random(72);
    for round in 0..300 {
        let net = weighed(&mut r, round);
        let mut light = net.clone();
        light.sinks.iter_mut().for_each(|s| s.weight = 1);
        let [one, two] = [&net, &light].map(|net| {
            let text = String::from_utf8(net.text()).unwrap();
            let first = plan(&text);
            let judged = judge(&text, &first.1);
            (first, judged, short::planned(net), slow::planned(net))
        });
        assert_eq!(one, two);
    }
}

/// A deep tree: 512 sinks whose weights double as far as they may.
#[test]
fn many_sinks() {
    let weights: Vec<i64> = (0..512).map(|i| 1 << (i % 10).min(9)).collect();
    let sinks: Vec<(&str, i64)> = weights.iter().map(|&w| ("3,4", w)).collect();
    let text = net(&sinks);
    let (answer, bytes) = plan_weighted(text.as_bytes(), 32_768);
    let net = Net::read(text.as_bytes()).unwrap();
    let tree = Listing::read(&bytes, &net).unwrap().tree;
    let depth = |k: usize| path(&tree, k).count() as i64 - 2;
    let deepest = (1..=512).map(depth).max().unwrap();
    assert_eq!(answer.slack, -14 - 20 * deepest);
    assert!(deepest > 9);
}
