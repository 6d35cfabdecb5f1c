//! The marked nets and lines of the order, on all references.

use crate::answer::Answer;
use crate::kraft;
use crate::net::Net;
use crate::tree::{median, Point};
use crate::{gathered, insertion, plain, slow};

const A_LISTING: &str = "slack=0\nwire=32\nsinks=3\nleaf=1,5\nleaf=2,5\nleaf=3,4\n\
node=4,0,4,0\nnode=5,4,4,0\n";

pub(crate) fn a(need: &str) -> String {
    format!(
        "root=0,0\nbranch=20\nwire=2,2\nneed={need}\nsinks=3\n\
         sink=10,0,100,1\nsink=4,6,60,1\nsink=10,10,70,1\n"
    )
}

pub(crate) fn plan(net: &str) -> (Answer, String) {
    let mut out = vec![b'?'; 40_000];
    let answer = slow::plan(net.as_bytes(), &mut out);
    for plan in [plain::plan, gathered::plan] {
        let mut other = vec![b'?'; 40_000];
        assert_eq!(answer, plan(net.as_bytes(), &mut other));
        assert_eq!(out, other);
    }
    let written = if answer.number == 0 {
        answer.last as usize
    } else {
        0
    };
    assert!(out[written..].iter().all(|&b| b == b'?'));
    (answer, String::from_utf8(out[..written].to_vec()).unwrap())
}

pub(crate) fn refusal(answer: Answer) -> (u8, u8, usize) {
    assert_eq!((answer.slack, answer.wire, answer.last), (0, 0, 0));
    (answer.number, answer.text, answer.line)
}

fn refused_plan(net: &str) -> (u8, u8, usize) {
    refusal(plan(net).0)
}

pub(crate) fn judge(net: &str, listing: &str) -> Answer {
    let answer = slow::judge(net.as_bytes(), listing.as_bytes());
    assert_eq!(answer, plain::judge(net.as_bytes(), listing.as_bytes()));
    answer
}

fn judge_parents(parents: [usize; 5]) -> (u8, u8, usize) {
    let [a1, b, c, d, e] = parents;
    let tree = format!("leaf=1,{a1}\nleaf=2,{b}\nleaf=3,{c}\nnode=4,{d},0,0\nnode=5,{e},0,0\n");
    refusal(judge(&a("0"), &format!("slack=0\nwire=0\nsinks=3\n{tree}")))
}

#[test]
fn net_a() {
    assert_eq!(
        Net::read(a("0").as_bytes()).unwrap().own_slacks(),
        [80, 40, 30]
    );
    let (answer, text) = plan(&a("0"));
    assert_eq!(answer, Answer::done(0, 32, A_LISTING.len() as i64));
    assert_eq!(text, A_LISTING);
    assert_eq!(judge(&a("0"), A_LISTING), Answer::done(0, 32, 0));
    assert_eq!(refused_plan(&a("1")), (5, 1, 4));
}

/// Request 3: what is gathered and tried for A's second and third sink, each
/// vertex or lower end with its number.
#[test]
fn gathered_for_net_a() {
    let net = Net::read(a("0").as_bytes()).unwrap();
    let mut steps = Vec::new();
    insertion::planned(&net, |i| {
        let gathered = gathered::gather(i);
        let ends: Vec<usize> = i.lower_ends().collect();
        let under = [&[0], &ends[..]].concat();
        steps.push((
            under.iter().map(|&v| (v, gathered.under(v))).collect(),
            ends.iter().map(|&v| (v, gathered.tried(v))).collect(),
        ));
        gathered.best_end()
    });
    let second = (vec![(0, 30), (3, 30)], vec![(3, 10)]);
    let third = (
        vec![(0, 10), (3, 10), (2, 20), (4, 10)],
        vec![(3, -10), (2, 0), (4, -10)],
    );
    assert_eq!(steps, [second, third]);
}

#[test]
fn three_sinks_at_the_root() {
    let net = format!(
        "root=0,0\nbranch=20\nwire=2,2\nneed=-40\nsinks=3\n{}",
        "sink=0,0,0,1\n".repeat(3)
    );
    let (answer, text) = plan(&net);
    assert_eq!((answer.slack, answer.wire), (-40, 0));
    assert!(text.ends_with("leaf=1,5\nleaf=2,4\nleaf=3,5\nnode=4,0,0,0\nnode=5,4,0,0\n"));
}

/// Request 1: the root is nearer to sink 3 than both tied sinks are, so the
/// edge above branch point 4 is split.
#[test]
fn a_branch_point_is_nearest() {
    let net = "root=0,0\nbranch=20\nwire=2,2\nneed=-40\nsinks=3\n\
               sink=10,0,20,1\nsink=10,0,20,1\nsink=1,0,2,1\n";
    let (answer, text) = plan(net);
    assert_eq!((answer.slack, answer.wire), (-40, 10));
    assert!(text.ends_with("leaf=1,4\nleaf=2,4\nleaf=3,5\nnode=4,5,10,0\nnode=5,0,1,0\n"));
    assert_eq!(judge(net, &text), Answer::done(-40, 10, -40));
}

/// All edges tie for sink 3, and sink 2 is nearer to it than sink 1 and the
/// root.
#[test]
fn the_nearer_of_two_sinks() {
    let net = "root=0,0\nbranch=20\nwire=2,2\nneed=-40\nsinks=3\n\
               sink=10,0,20,1\nsink=0,10,20,1\nsink=1,10,22,1\n";
    let (answer, text) = plan(net);
    assert_eq!((answer.slack, answer.wire), (-40, 21));
    assert!(text.ends_with("leaf=1,4\nleaf=2,5\nleaf=3,5\nnode=4,0,0,0\nnode=5,4,0,10\n"));
}

/// The root is as near to sink 3 as sink 2 is: the sink has the lower number.
#[test]
fn a_sink_as_near_as_the_root() {
    let net = "root=0,0\nbranch=20\nwire=2,2\nneed=-40\nsinks=3\n\
               sink=-10,0,20,1\nsink=4,4,16,1\nsink=6,-1,14,1\n";
    let (answer, text) = plan(net);
    assert_eq!((answer.slack, answer.wire), (-40, 21));
    assert!(text.ends_with("leaf=1,4\nleaf=2,5\nleaf=3,5\nnode=4,0,0,0\nnode=5,4,4,0\n"));
}

#[test]
fn one_sink() {
    for c in [1, 20, 1_000_000_000] {
        let net = format!("root=0,0\nbranch={c}\nwire=2,2\nneed=-4\nsinks=1\nsink=3,4,10,1\n");
        let (answer, text) = plan(&net);
        assert_eq!((answer.slack, answer.wire), (-4, 7));
        assert_eq!(judge(&net, &text).last, -4);
        assert_eq!(kraft::maximum(&Net::read(net.as_bytes()).unwrap()), -4);
    }
}

#[test]
fn small_figures() {
    assert_eq!(kraft::maximum_of(&[5, 5], 3), 2);
    let p = |x, y| Point::new(x, y);
    assert_eq!(median(p(0, 0), p(4, 6), p(10, 0)), p(4, 0));
}

#[test]
fn listings_of_a() {
    let with = |from: &str, to: &str| refusal(judge(&a("0"), &A_LISTING.replace(from, to)));
    assert_eq!(with("slack=0", "slack=1"), (11, 2, 1));
    assert_eq!(with("wire=32", "wire=31"), (12, 2, 2));
    assert_eq!(judge_parents([0, 4, 5, 5, 4]), (10, 2, 5));
    assert_eq!(judge_parents([4, 4, 4, 0, 4]), (9, 2, 7));
}

#[test]
fn refused_nets() {
    assert_eq!(refused_plan(""), (2, 1, 1));
    assert_eq!(
        refused_plan(&a("0").replace("branch=20", "branch=0")),
        (3, 1, 2)
    );
    assert_eq!(refused_plan(&a("-0")), (2, 1, 4));
    assert_eq!(
        refused_plan(&a("0").replace("sinks=3", "sinks=513")),
        (3, 1, 5)
    );
    assert_eq!(
        refused_plan(&a("0").replace("=10,0", "=100000001,0")),
        (3, 1, 6)
    );
}

/// A net of one sink, its root and its sink so spelt.
pub(crate) fn one(root: &str, sink: &str) -> String {
    format!("root={root}\nbranch=20\nwire=2,2\nneed=-2000000000000000\nsinks=1\nsink={sink},0,1\n")
}

/// What plan says, and judge of the plan's listing or of none: the same.
pub(crate) fn told(net: &str) -> (u8, u8, usize) {
    let (answer, listing) = plan(net);
    let judged = judge(net, &listing);
    let told = (judged.number, judged.text, judged.line);
    assert_eq!((answer.number, answer.text, answer.line), told);
    told
}

/// Requests 2 and 5: X 100000000 passes only with a root near enough.
#[test]
fn the_last_position() {
    assert_eq!(told(&a("0").replace("=10,0", "=100000000,0")), (13, 1, 6));
    assert_eq!(told(&one("0,0", "100000000,0")), (13, 1, 6));
    assert_eq!(told(&one("59999999,0", "100000000,0")), (13, 1, 6));
    for (root, sink) in [
        ("60000000,0", "100000000,0"),
        ("-60000000,0", "-100000000,0"),
        ("7,60000000", "7,100000000"),
        ("80000000,-80000000", "100000000,-100000000"),
        ("100000000,0", "100000000,0"),
    ] {
        assert_eq!(told(&one(root, sink)), (0, 0, 0));
    }
    assert_eq!(told(&one("0,0", "100000001,0")), (3, 1, 6));
    assert_eq!(told(&one("60000001,0", "100000001,0")), (3, 1, 6));
}

#[test]
fn pins_at_the_limit() {
    let near = [
        "40000000,0",
        "0,-40000000",
        "20000000,20000000",
        "-39999999,1",
    ];
    for sink in near {
        assert_eq!(told(&one("0,0", sink)), (0, 0, 0));
    }
    let far = [
        "40000001,0",
        "0,-40000001",
        "20000000,20000001",
        "-40000000,1",
        "1,40000000",
    ];
    for sink in far {
        assert_eq!(told(&one("0,0", sink)), (13, 1, 6));
    }
}

/// 13 follows 2 and 3 on its line, and goes before later lines, 4, 5 and 6.
#[test]
fn a_far_pin_and_another_fault() {
    let net = a("1").replace("=4,6,60", "=40000000,1,60");
    let with = |from: &str, to: &str| told(&net.replace(from, to));
    assert_eq!(told(&net), (13, 1, 7));
    assert_eq!(with(",1,60", ",1,-0"), (2, 1, 7));
    assert_eq!(with(",1,60", ",1,1000000000000001"), (3, 1, 7));
    assert_eq!(with("=10,0,", "=10,-0,"), (2, 1, 6));
    assert_eq!(with("=10,0,", "=50000000,0,"), (13, 1, 6));
    assert_eq!(with("=10,10,70", "=x"), (13, 1, 7));
    assert_eq!(with(",70,1\n", ",70,1\nx"), (13, 1, 7));
    assert_eq!(with(",70,1\n", &"x".repeat(32_768)), (1, 1, 0));
    assert_eq!(refusal(slow::plan(net.as_bytes(), &mut [])), (13, 1, 7));
    assert_eq!(refusal(plain::plan(net.as_bytes(), &mut [])), (13, 1, 7));
}

#[test]
fn full_net() {
    let head = "root=0,0\nbranch=20\nwire=2,2\nneed=-2000000000000000\nsinks=512\n";
    let net = format!("{head}{}", "sink=1,1,5,1\n".repeat(512));
    let mut out = vec![0; 32_768];
    let answer = plain::plan(net.as_bytes(), &mut out);
    assert_eq!((answer.number, answer.slack), (0, 5 - 4 - 9 * 20));
    let listing = &out[..answer.last as usize];
    assert_eq!(slow::judge(net.as_bytes(), listing).last, answer.slack);
}
