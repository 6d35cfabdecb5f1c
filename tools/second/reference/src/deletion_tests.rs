//! Request 9, a pin is deleted: trees worked out by hand, refusals in their order,
//! outputs of every length, and random nets down to one sink, on both references.

use crate::answer::Deletion;
use crate::listing::Listing;
use crate::marked_tests::{a, judge, one, plan};
use crate::net::Net;
use crate::random_tests::{weighed, Random};
use crate::tree::slack;
use crate::{deletion, plain};

/// What no text has.
const FILLING: u8 = b'?';

/// The figures and both outputs, the same from both references.
fn deleted(net: &str, listing: &str, sink: usize, room: [usize; 2]) -> (Deletion, [Vec<u8>; 2]) {
    let [one, two] = [deletion::delete_pin, plain::delete_pin].map(|delete| {
        let [mut net_out, mut listing_out] = room.map(|length| vec![FILLING; length]);
        let (net, listing) = (net.as_bytes(), listing.as_bytes());
        let figures = delete(net, listing, sink, &mut net_out, &mut listing_out);
        (figures, [net_out, listing_out])
    });
    assert_eq!(one, two, "sink {sink} room {room:?}");
    one
}

const ENOUGH: [usize; 2] = [40_000, 40_000];

/// Number, text and line; no bytes, and nothing is written.
fn refused(net: &str, listing: &str, sink: usize, room: [usize; 2]) -> (u8, u8, usize) {
    let (figures, outs) = deleted(net, listing, sink, room);
    assert_eq!((figures.net_bytes, figures.listing_bytes), (0, 0));
    assert!(outs.concat().iter().all(|&b| b == FILLING));
    (figures.number, figures.text, figures.line)
}

/// The shorter net and listing, which judge accepts; the rest of the outputs is as
/// it was.
fn shorter(net: &str, listing: &str, sink: usize) -> (String, String) {
    let (figures, outs) = deleted(net, listing, sink, ENOUGH);
    let told = (figures.number, figures.text, figures.line);
    assert_eq!(told, (0, 0, 0), "sink {sink}");
    let bytes = [figures.net_bytes, figures.listing_bytes];
    let [net, listing] = [0, 1].map(|i| {
        let (text, rest) = outs[i].split_at(bytes[i]);
        assert!(rest.iter().all(|&b| b == FILLING));
        String::from_utf8(text.to_vec()).unwrap()
    });
    assert_eq!(judge(&net, &listing).number, 0);
    (net, listing)
}

fn check(net: &str, listing: &str, sink: usize, expected: (&str, &str)) {
    let (net, listing) = shorter(net, listing, sink);
    assert_eq!((&net[..], &listing[..]), expected, "sink {sink}");
}

/// The listing of 01.
fn net_a() -> (String, String) {
    (a("0"), plan(&a("0")).1)
}

/// Sinks 1 and 2 hang on 5, which hangs on 4, as sink 3 does: the sibling of 1 and
/// of 2 moves up to 4, and without 3 branch point 5 hangs on the root.
#[test]
fn each_sink_of_net_a() {
    let (net, listing) = net_a();
    let of_two = |sinks: &str, slack, wire| {
        let net = format!("root=0,0\nbranch=20\nwire=2,2\nneed=0\nsinks=2\n{sinks}");
        let tree = "leaf=1,3\nleaf=2,3\nnode=3,0,4,0\n";
        let listing = format!("slack={slack}\nwire={wire}\nsinks=2\n{tree}");
        (net, listing)
    };
    for (sink, (shorter, tree)) in [
        (1, of_two("sink=4,6,60,1\nsink=10,10,70,1\n", 10, 26)),
        (2, of_two("sink=10,0,100,1\nsink=10,10,70,1\n", 10, 26)),
        (3, of_two("sink=10,0,100,1\nsink=4,6,60,1\n", 20, 16)),
    ] {
        check(&net, &listing, sink, (&shorter, &tree));
    }
}

/// A's sink 1 alone: its sibling goes, and the root has a sink for its child.
#[test]
fn net_a_down_to_one() {
    let (net, listing) = net_a();
    let (net, listing) = shorter(&net, &listing, 3);
    let (net, listing) = shorter(&net, &listing, 2);
    assert_eq!(
        net,
        "root=0,0\nbranch=20\nwire=2,2\nneed=0\nsinks=1\nsink=10,0,100,1\n"
    );
    assert_eq!(listing, "slack=80\nwire=10\nsinks=1\nleaf=1,0\n");
    assert_eq!(refused(&net, &listing, 1, ENOUGH), (16, 0, 0));
}

/// Branch point 7 hangs on the root, 6 on 7 by a detour, 5 on 6; sink 1 hangs on 7,
/// 3 on 6, 2 and 4 on 5.
const FOUR: &str = "root=0,0\nbranch=10\nwire=1,3\nneed=-7\nsinks=4\n\
sink=5,0,100,11\nsink=0,4,90,12\nsink=-3,1,80,13\nsink=6,2,70,14\n";
const FOUR_LISTING: &str = "slack=6\nwire=32\nsinks=4\nleaf=1,7\nleaf=2,5\nleaf=3,6\nleaf=4,5\n\
node=5,6,2,2\nnode=6,7,-1,5\nnode=7,0,1,0\n";

/// The branch point that goes has others below and above its number; slacks are
/// 85, 22, 28 and 6 before.
#[test]
fn numbers_close_up() {
    let net = |sinks: &str| format!("root=0,0\nbranch=10\nwire=1,3\nneed=-7\nsinks=3\n{sinks}");
    let (one, two) = ("sink=5,0,100,11\n", "sink=0,4,90,12\n");
    let (three, four) = ("sink=-3,1,80,13\n", "sink=6,2,70,14\n");
    for (sink, left, listing) in [
        (
            1,
            [two, three, four],
            "slack=18\nwire=26\nsinks=3\nleaf=1,4\nleaf=2,5\nleaf=3,4\n\
             node=4,5,2,2\nnode=5,0,-1,5\n",
        ),
        (
            2,
            [one, three, four],
            "slack=16\nwire=28\nsinks=3\nleaf=1,5\nleaf=2,4\nleaf=3,4\n\
             node=4,5,-1,5\nnode=5,0,1,0\n",
        ),
        (
            3,
            [one, two, four],
            "slack=38\nwire=16\nsinks=3\nleaf=1,5\nleaf=2,4\nleaf=3,4\n\
             node=4,5,2,2\nnode=5,0,1,0\n",
        ),
        (
            4,
            [one, two, three],
            "slack=28\nwire=20\nsinks=3\nleaf=1,5\nleaf=2,4\nleaf=3,4\n\
             node=4,5,-1,5\nnode=5,0,1,0\n",
        ),
    ] {
        check(FOUR, FOUR_LISTING, sink, (&net(&left.concat()), listing));
    }
}

/// Numbers that are no sink's, for a net of n.
fn no_sinks(n: usize) -> [usize; 9] {
    let high = 1 << (usize::BITS - 1);
    let word = 1 << 32;
    [
        0,
        n + 1,
        2 * n,
        n + 256,
        n + 65_536,
        word + n,
        high,
        high + n,
        usize::MAX,
    ]
}

/// 15 before 16, and both before 6.
#[test]
fn sinks_that_are_not_there() {
    let alone = one("0,0", "3,4");
    for (net, listing) in [net_a(), (alone.clone(), plan(&alone).1)] {
        let n = Net::read(net.as_bytes()).unwrap().sinks.len();
        for room in [ENOUGH, [0, 0], [40_000, 0], [0, 40_000]] {
            for sink in no_sinks(n) {
                assert_eq!(refused(&net, &listing, sink, room), (15, 0, 0), "{sink}");
            }
            if n == 1 {
                assert_eq!(refused(&net, &listing, 1, room), (16, 0, 0));
            }
        }
    }
}

/// 6 exactly where either is too short, and then both stay as they were.
#[test]
fn outputs_of_every_length() {
    for sink in 1..=4 {
        let (net, listing) = shorter(FOUR, FOUR_LISTING, sink);
        let exact = [net.len(), listing.len()];
        for (net_room, listing_room) in [
            (exact[0], exact[1]),
            (exact[0] + 1, exact[1]),
            (exact[0], exact[1] + 1),
            (exact[0] - 1, exact[1]),
            (exact[0], exact[1] - 1),
            (exact[0] - 1, exact[1] - 1),
            (0, exact[1]),
            (exact[0], 0),
            (0, 40_000),
            (40_000, 0),
            (0, 0),
        ] {
            let room = [net_room, listing_room];
            if net_room < exact[0] || listing_room < exact[1] {
                let told = refused(FOUR, FOUR_LISTING, sink, room);
                assert_eq!(told, (6, 0, 0), "{room:?}");
            } else {
                let (figures, outs) = deleted(FOUR, FOUR_LISTING, sink, room);
                assert_eq!([figures.net_bytes, figures.listing_bytes], exact);
                assert!(outs[0].starts_with(net.as_bytes()));
                assert!(outs[1].starts_with(listing.as_bytes()));
            }
        }
    }
}

/// Whatever the sink and the room, judge's refusal is told.
#[test]
fn judge_refuses_first() {
    let (net, listing) = net_a();
    let with = |from: &str, to: &str| (net.clone(), listing.replace(from, to));
    let net_with = |from: &str, to: &str| (net.replace(from, to), listing.clone());
    let long = "x".repeat(32_769);
    for (texts, told) in [
        ((long.clone(), listing.clone()), (1, 1, 0)),
        ((net.clone(), long), (1, 2, 0)),
        ((String::new(), listing.clone()), (2, 1, 1)),
        ((net.clone(), String::new()), (2, 2, 1)),
        (net_with("branch=20", "branch=0"), (3, 1, 2)),
        (net_with("70,1\n", "70,1\nx"), (4, 1, 9)),
        (with("5,4,4,0\n", "5,4,4,0\n\n"), (4, 2, 9)),
        (with("sinks=3", "sinks=2"), (7, 2, 3)),
        (with("leaf=2,5", "leaf=2,3"), (8, 2, 5)),
        (with("leaf=2,5", "leaf=2,4"), (9, 2, 7)),
        (with("leaf=3,4\nnode=4,0", "leaf=3,0\nnode=4,4"), (10, 2, 4)),
        (with("slack=0", "slack=1"), (11, 2, 1)),
        (with("wire=32", "wire=31"), (12, 2, 2)),
        ((one("0,0", "40000000,1"), listing.clone()), (13, 1, 6)),
    ] {
        for sink in [0, 1, 2, 3, 4, usize::MAX] {
            for room in [ENOUGH, [0, 0]] {
                assert_eq!(refused(&texts.0, &texts.1, sink, room), told, "{sink}");
            }
        }
    }
}

/// The slacks of all sinks, and the wire.
fn measures(net: &str, listing: &str) -> (Vec<i128>, i64) {
    let net = Net::read(net.as_bytes()).unwrap();
    let listing = Listing::read(listing.as_bytes(), &net).unwrap();
    let slacks = (1..=net.sinks.len()).map(|k| slack(&net, &listing.tree, k));
    (slacks.collect(), listing.wire)
}

/// "No remaining sink loses slack, and wire doesn't grow."
#[test]
fn random_nets_down_to_one() {
    let mut r = Random(90);
    for round in 0..600 {
        let mut net = String::from_utf8(weighed(&mut r, round).text()).unwrap();
        let mut listing = plan(&net).1;
        loop {
            let (mut before, wire) = measures(&net, &listing);
            let sink = 1 + r.below(before.len() as i64) as usize;
            if before.len() == 1 {
                assert_eq!(refused(&net, &listing, sink, ENOUGH), (16, 0, 0));
                break;
            }
            (net, listing) = shorter(&net, &listing, sink);
            before.remove(sink - 1);
            let (after, shorter_wire) = measures(&net, &listing);
            assert_eq!(before.len(), after.len());
            assert!(before
                .iter()
                .zip(&after)
                .all(|(before, after)| before <= after));
            assert!(shorter_wire <= wire);
        }
    }
}
