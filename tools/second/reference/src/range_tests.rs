//! Request 5, nanometres: the ends of every range and length, and nets whose
//! numbers are a multiple of another's, on all references.

use crate::marked_tests::{judge, plan, told};
use crate::net::{Net, Sink};
use crate::random_tests::{net_of_round, Random};
use crate::tree::Point;

/// One sink at the root, each line's numbers so spelt.
fn net(root: &str, branch: &str, need: &str, arrival: &str) -> String {
    format!(
        "root={root}\nbranch={branch}\nwire=10000,10000\nneed={need}\nsinks=1\n\
         sink={root},{arrival},1\n"
    )
}

const LOW: &str = "-2000000000000000";

#[test]
fn both_ends_of_each_range_of_a_net() {
    for root in ["-100000000,100000000", "100000000,-100000000"] {
        assert_eq!(told(&net(root, "1", LOW, "0")), (0, 0, 0));
    }
    for root in ["-100000001,0", "100000001,0", "0,-100000001", "0,100000001"] {
        assert_eq!(told(&net(root, "1", LOW, "0")), (3, 1, 1));
    }
    assert_eq!(told(&net("0,0", "1000000000", LOW, "0")), (0, 0, 0));
    for branch in ["0", "1000000001"] {
        assert_eq!(told(&net("0,0", branch, LOW, "0")), (3, 1, 2));
    }
    for need in ["-2000000000000001", "2000000000000001"] {
        assert_eq!(told(&net("0,0", "1", need, "0")), (3, 1, 4));
    }
    let most = plan(&net("0,0", "1", "2000000000000000", "0")).0;
    assert_eq!((most.number, most.line), (5, 4));
    for arrival in [-1_000_000_000_000_000, 1_000_000_000_000_000i64] {
        let net = net("0,0", "1", LOW, &arrival.to_string());
        assert_eq!(plan(&net).0.slack, arrival);
    }
    for arrival in ["-1000000000000001", "1000000000000001"] {
        assert_eq!(told(&net("0,0", "1", LOW, arrival)), (3, 1, 6));
    }
}

/// What line the listing of two sinks is refused on, and by which number.
fn listed(slack: &str, wire: &str, at: &str) -> (u8, usize) {
    let net = "root=0,0\nbranch=1\nwire=1,1\nneed=0\nsinks=2\nsink=0,0,9,1\nsink=0,0,9,1\n";
    let listing =
        format!("slack={slack}\nwire={wire}\nsinks=2\nleaf=1,3\nleaf=2,3\nnode=3,0,{at}\n");
    let answer = judge(net, &listing);
    (answer.number, answer.line)
}

/// A number in range goes on to the tree's measures: 11, or 12.
#[test]
fn both_ends_of_each_range_of_a_listing() {
    for slack in ["-4000000000000000", "4000000000000000"] {
        assert_eq!(listed(slack, "0", "0,0"), (11, 1));
    }
    for slack in ["-4000000000000001", "4000000000000001"] {
        assert_eq!(listed(slack, "0", "0,0"), (3, 1));
    }
    assert_eq!(listed("8", "1000000000000", "0,0"), (12, 2));
    assert_eq!(listed("8", "1000000000001", "0,0"), (3, 2));
    for at in ["-100000000,100000000", "100000000,-100000000"] {
        assert_eq!(listed("-399999992", "600000000", at), (0, 0));
    }
    for at in ["-100000001,0", "0,100000001"] {
        assert_eq!(listed("8", "0", at), (3, 6));
    }
}

#[test]
fn both_lengths() {
    let net = net("0,0", "1", LOW, "0");
    let (_, listing) = plan(&net);
    for (length, number, net_line, listing_line) in [(32_768, 4, 7, 5), (32_769, 1, 0, 0)] {
        let filled = |text: &str| format!("{text}{}", "x".repeat(length - text.len()));
        assert_eq!(told(&filled(&net)), (number, 1, net_line));
        let judged = judge(&net, &filled(&listing));
        assert_eq!((judged.number, judged.line), (number, listing_line));
    }
}

fn times(net: &Net, factor: i64) -> Net {
    let point = |p: Point| Point {
        x: p.x * factor as i128,
        y: p.y * factor as i128,
    };
    let sink = |s: &Sink| Sink {
        at: point(s.at),
        arrival: s.arrival * factor,
        ..*s
    };
    Net {
        root: point(net.root),
        branch: net.branch * factor,
        wire: net.wire,
        need: net.need * factor,
        sinks: net.sinks.iter().map(sink).collect(),
    }
}

/// Every number of a plan's listing but its vertices' grows by the factor.
#[test]
fn a_plan_in_another_unit_is_the_same() {
    let mut r = Random(1000);
    for round in 0..600 {
        let mut net = net_of_round(&mut r, round % 4);
        net.need = -1_000_000_000_000;
        let factor = [1000, 1000, 2, 7, 999][round % 5];
        let other = times(&net, factor);
        let text = |net: &Net| String::from_utf8(net.text()).unwrap();
        let ((one, first), (two, second)) = (plan(&text(&net)), plan(&text(&other)));
        assert_eq!((one.number, two.number), (0, 0));
        assert_eq!(two.slack, one.slack * factor);
        assert_eq!(two.wire, one.wire * factor as u64);
        let read = |text: &str, net| crate::listing::Listing::read(text.as_bytes(), net).unwrap();
        let (first, second) = (read(&first, &net), read(&second, &other));
        assert_eq!(first.tree.parent, second.tree.parent);
        for (p, q) in first.tree.point.iter().zip(&second.tree.point) {
            let factor = factor as i128;
            assert_eq!((p.x * factor, p.y * factor), (q.x, q.y));
        }
        let judged = judge(&text(&other), &String::from_utf8(second.text()).unwrap());
        assert_eq!((judged.slack, judged.last), (two.slack, two.slack));
    }
}
