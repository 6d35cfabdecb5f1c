//! Request 4, two metal directions, on all references.

use crate::answer::Answer;
use crate::marked_tests::{judge, one, plan, refusal, told};
use crate::net::Net;

/// Net A's pins, later due, with factors so spelt.
fn net(factors: &str) -> String {
    format!(
        "root=0,0\nbranch=20\nwire={factors}\nneed=0\nsinks=3\n\
         sink=10,0,100,1\nsink=4,6,110,1\nsink=10,10,150,1\n"
    )
}

fn own_slacks(net: &str) -> Vec<i128> {
    Net::read(net.as_bytes()).unwrap().own_slacks()
}

/// Neither factor alone gives the tree of both, and they do not change places.
#[test]
fn both_factors_decide() {
    for (factors, own, listing) in [
        (
            "2,6",
            [80, 66, 70],
            "slack=30\nwire=26\nsinks=3\nleaf=1,5\nleaf=2,4\nleaf=3,5\n\
             node=4,0,4,0\nnode=5,4,10,0\n",
        ),
        (
            "2,2",
            [80, 90, 110],
            "slack=50\nwire=26\nsinks=3\nleaf=1,4\nleaf=2,5\nleaf=3,5\n\
             node=4,0,4,0\nnode=5,4,4,6\n",
        ),
        (
            "6,6",
            [40, 50, 30],
            "slack=0\nwire=32\nsinks=3\nleaf=1,5\nleaf=2,5\nleaf=3,4\n\
             node=4,0,4,0\nnode=5,4,4,0\n",
        ),
        (
            "6,2",
            [40, 74, 70],
            "slack=20\nwire=26\nsinks=3\nleaf=1,4\nleaf=2,5\nleaf=3,5\n\
             node=4,0,4,0\nnode=5,4,4,6\n",
        ),
    ] {
        let net = net(factors);
        assert_eq!(own_slacks(&net), own);
        let (answer, text) = plan(&net);
        assert_eq!(text, listing);
        let slack = answer.slack;
        assert_eq!(judge(&net, &text), Answer::done(slack, answer.wire, slack));
    }
}

/// All edges tie for sink 3. Sink 2 is 4 from it and sink 1 is 6; in time it
/// would be 24 and 12.
#[test]
fn nearness_stays_plain() {
    let net = "root=0,0\nbranch=20\nwire=2,6\nneed=-40\nsinks=3\n\
               sink=10,4,44,1\nsink=4,0,8,1\nsink=4,4,32,1\n";
    assert_eq!(own_slacks(net), [0, 0, 0]);
    let (answer, text) = plan(net);
    assert_eq!((answer.slack, answer.wire), (-40, 18));
    assert!(text.ends_with("leaf=1,4\nleaf=2,5\nleaf=3,5\nnode=4,0,4,0\nnode=5,4,4,0\n"));
}

/// Over a detour: sink 1 is reached by 10 across and 20 upward, sink 2 by 4 and
/// 14. The wire is the edges' nanometres, 10 + 20 + 8.
#[test]
fn path_slack_has_both_factors() {
    let net = "root=0,0\nbranch=20\nwire=2,6\nneed=0\nsinks=2\nsink=10,0,100,1\nsink=4,6,110,1\n";
    let listing = "slack=-60\nwire=38\nsinks=2\nleaf=1,3\nleaf=2,3\nnode=3,0,0,10\n";
    assert_eq!(judge(net, listing), Answer::done(-60, 38, 46));
    let weighed = listing.replace("wire=38", "wire=172");
    assert_eq!(refusal(judge(net, &weighed)), (12, 2, 2));
    let exchanged = net.replace("wire=2,6", "wire=6,2");
    assert_eq!(refusal(judge(&exchanged, listing)), (11, 2, 1));
}

#[test]
fn the_pin_limit_stays_plain() {
    for factors in ["1,10000", "10000,1", "1,1", "10000,10000"] {
        let wire = format!("wire={factors}\n");
        for (sink, number) in [("39999999,1", 0), ("1,39999999", 0), ("1,40000000", 13)] {
            let net = one("0,0", sink).replace("wire=2,2\n", &wire);
            assert_eq!(told(&net).0, number);
        }
    }
}

/// What line 3 is told by, so spelt.
fn line_3(spelt: &str) -> u8 {
    let (number, text, line) = told(&net("2,6").replace("wire=2,6", spelt));
    assert!(number == 0 || (text, line) == (1, 3));
    number
}

#[test]
fn a_line_of_two_factors() {
    for spelt in ["1,1", "1,10000", "10000,1", "10000,10000"] {
        let net = net(spelt).replace("need=0", "need=-2000000000000000");
        assert_eq!(told(&net), (0, 0, 0));
    }
    let long = "9".repeat(9000);
    let range = ["0,6", "2,0", "0,0", "10001,6", "2,10001", "-1,6", "2,-1"];
    for spelt in range {
        assert_eq!(line_3(&format!("wire={spelt}")), 3, "{spelt}");
    }
    assert_eq!(line_3(&format!("wire={long},6")), 3);
    assert_eq!(line_3(&format!("wire=2,-{long}")), 3);
    for spelt in [
        "2", "0", "10001", "2,6,1", "2,6,x", "2,", ",6", ",", "", "0,x", "x,0", "0,", "-0,6",
        "2,-0", "02,6", "2,06", "+2,6", "2, 6", "2 6", "2;6", "2,6 ", "2,6\r", "0,0,0",
    ] {
        assert_eq!(line_3(&format!("wire={spelt}")), 2, "{spelt}");
    }
}

#[test]
fn a_line_of_two_factors_without_its_end() {
    let whole = net("2,6");
    let (front, _) = whole.split_at(whole.find("\nneed").unwrap());
    assert_eq!(told(front), (2, 1, 3));
    assert_eq!(told(&format!("{front}\n")), (2, 1, 4));
    assert_eq!(told(&whole.replace("6\nneed", "6need")), (2, 1, 3));
}

/// The listing's line of wire has one number.
#[test]
fn a_listing_states_one_wire() {
    let (_, listing) = plan(&net("2,6"));
    let two = listing.replace("wire=26", "wire=26,26");
    assert_eq!(refusal(judge(&net("2,6"), &two)), (2, 2, 2));
}
