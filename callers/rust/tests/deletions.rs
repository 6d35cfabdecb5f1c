//! A pin deleted: whole texts, what the outputs keep, and what is refused.

mod net_a;

use net_a::{refused, LISTING, NET, SHORT};
use repeater_tree::{
    delete_pin, delete_pin_figures, judge, plan, Deletion, DeletionFigures, Refusal,
    LISTING_LENGTH, NET_LENGTH,
};

const fn neither(number: u8) -> Refusal {
    Refusal {
        number,
        text: 0,
        line: 0,
    }
}

const TOO_SHORT: Refusal = neither(6);
const NOT_A_SINK: Refusal = neither(15);
const ONLY_SINK: Refusal = neither(16);

/// A net and its listing.
type Texts = (String, String);

fn texts(net: &str, listing: &str) -> Texts {
    (net.to_string(), listing.to_string())
}

/// What is left without the sink; the bytes beyond both texts keep their values,
/// and all of them at a refusal.
fn left((net, listing): &Texts, sink: usize) -> Result<Texts, Refusal> {
    let (mut net_out, mut out) = (vec![7; NET_LENGTH], vec![7; LISTING_LENGTH]);
    let (net, listing) = (net.as_bytes(), listing.as_bytes());
    let found = delete_pin(net, listing, sink, &mut net_out, &mut out);
    let (net_bytes, bytes) = found.map_or((0, 0), |f| (f.net_bytes, f.listing_bytes));
    for beyond in [net_out.split_off(net_bytes), out.split_off(bytes)] {
        assert!(beyond.iter().all(|&b| b == 7));
    }
    let text = |bytes| String::from_utf8(bytes).unwrap();
    found.map(|_| (text(net_out), text(out)))
}

/// These texts are left, judge accepts them with the figures that are stated, no
/// slack is lost and no wire won.
fn leaves(given: &Texts, sink: usize, net: &str, listing: &str) {
    assert_eq!(left(given, sink), Ok(texts(net, listing)));
    let before = judge(given.0.as_bytes(), given.1.as_bytes()).unwrap();
    let after = judge(net.as_bytes(), listing.as_bytes()).unwrap();
    let stated = format!("slack={}\nwire={}\n", after.slack, after.wire);
    assert!(listing.starts_with(&stated), "{listing}");
    assert!(after.slack >= before.slack && after.wire <= before.wire);
}

/// The two sinks that are left of net A.
fn two(sinks: &str) -> String {
    format!("root=0,0\nbranch=20\nwire=2,2\nneed=0\nsinks=2\n{sinks}")
}

/// Sinks 1 and 2 hang on branch point 5, that on 4 beside sink 3, and 4 on the
/// root. Without sink 1 or 2 the other hangs on 4, which is 3 now; without sink 3
/// branch point 5, which is 3 then, hangs on the root.
#[test]
fn each_sink_of_the_first_plan() {
    let given = texts(NET, LISTING);
    let tree = "sinks=2\nleaf=1,3\nleaf=2,3\nnode=3,0,4,0\n";
    leaves(
        &given,
        1,
        &two("sink=4,6,60,1\nsink=10,10,70,1\n"),
        &format!("slack=10\nwire=26\n{tree}"),
    );
    leaves(
        &given,
        2,
        &two("sink=10,0,100,1\nsink=10,10,70,1\n"),
        &format!("slack=10\nwire=26\n{tree}"),
    );
    leaves(
        &given,
        3,
        &two("sink=10,0,100,1\nsink=4,6,60,1\n"),
        &format!("slack=20\nwire=16\n{tree}"),
    );
}

/// Sinks 1 and 3 hang on branch point 5 at 10,0, that on 4 beside sink 2. Without
/// sink 2 the other two keep their branch point where it stands.
#[test]
fn each_sink_of_the_short_tree() {
    let given = texts(NET, SHORT);
    leaves(
        &given,
        1,
        &two("sink=4,6,60,1\nsink=10,10,70,1\n"),
        "slack=10\nwire=26\nsinks=2\nleaf=1,3\nleaf=2,3\nnode=3,0,4,0\n",
    );
    leaves(
        &given,
        2,
        &two("sink=10,0,100,1\nsink=10,10,70,1\n"),
        "slack=10\nwire=20\nsinks=2\nleaf=1,3\nleaf=2,3\nnode=3,0,10,0\n",
    );
    leaves(
        &given,
        3,
        &two("sink=10,0,100,1\nsink=4,6,60,1\n"),
        "slack=20\nwire=16\nsinks=2\nleaf=1,3\nleaf=2,3\nnode=3,0,4,0\n",
    );
}

/// Here the branch point on the root has the higher number. Each sink keeps its
/// weight.
#[test]
fn each_sink_of_the_tree_by_weights() {
    let net = NET.replace("100,1", "100,5").replace("70,1", "70,1000");
    let listing = "slack=-10\nwire=26\nsinks=3\nleaf=1,5\nleaf=2,4\nleaf=3,4\n\
                   node=4,5,4,6\nnode=5,0,4,0\n";
    let given = texts(&net, listing);
    leaves(
        &given,
        1,
        &two("sink=4,6,60,1\nsink=10,10,70,1000\n"),
        "slack=10\nwire=20\nsinks=2\nleaf=1,3\nleaf=2,3\nnode=3,0,4,6\n",
    );
    leaves(
        &given,
        2,
        &two("sink=10,0,100,5\nsink=10,10,70,1000\n"),
        "slack=10\nwire=26\nsinks=2\nleaf=1,3\nleaf=2,3\nnode=3,0,4,0\n",
    );
    leaves(
        &given,
        3,
        &two("sink=10,0,100,5\nsink=4,6,60,1\n"),
        "slack=20\nwire=16\nsinks=2\nleaf=1,3\nleaf=2,3\nnode=3,0,4,0\n",
    );
}

/// Branch points stand below and above the one that goes.
#[test]
fn numbers_close_up() {
    let head = "root=0,0\nbranch=20\nwire=2,2\nneed=-10\n";
    let sinks = [
        "sink=10,10,70,1\n",
        "sink=10,0,50,1\n",
        "sink=8,6,68,1\n",
        "sink=1,2,106,1\n",
    ];
    let given = (
        format!("{head}sinks=4\n{}", sinks.concat()),
        "slack=-10\nwire=31\nsinks=4\nleaf=1,6\nleaf=2,7\nleaf=3,6\nleaf=4,7\n\
         node=5,0,1,0\nnode=6,5,8,6\nnode=7,5,1,0\n"
            .to_string(),
    );
    for (sink, wire, tree) in [
        (
            1,
            25,
            "leaf=1,5\nleaf=2,4\nleaf=3,5\nnode=4,0,1,0\nnode=5,4,1,0\n",
        ),
        (
            2,
            22,
            "leaf=1,5\nleaf=2,5\nleaf=3,4\nnode=4,0,1,0\nnode=5,4,8,6\n",
        ),
        (
            3,
            31,
            "leaf=1,4\nleaf=2,5\nleaf=3,5\nnode=4,0,1,0\nnode=5,4,1,0\n",
        ),
        (
            4,
            29,
            "leaf=1,5\nleaf=2,4\nleaf=3,5\nnode=4,0,1,0\nnode=5,4,8,6\n",
        ),
    ] {
        let kept = (1..=4).filter(|k| *k != sink).map(|k| sinks[k - 1]);
        let net = format!("{head}sinks=3\n{}", kept.collect::<String>());
        let listing = format!("slack=-10\nwire={wire}\nsinks=3\n{tree}");
        leaves(&given, sink, &net, &listing);
    }
}

/// A tree with detours, which no plan gives, under a need that no tree has: 3, 4
/// and 5 stand where they stood, whatever shorter ways there are. In the end the
/// last sink hangs on the root, and cannot be deleted.
#[test]
fn a_tree_from_anywhere() {
    let net = |n: u8, sinks: [&str; 3]| {
        let head = "root=-3,4\nbranch=7\nwire=3,5\nneed=2000000000000000\n";
        format!("{head}sinks={n}\n{}", sinks.concat())
    };
    let (one, late, early) = (
        "sink=-3,4,50,1000\n",
        "sink=2,-6,-40,17\n",
        "sink=-10,0,1000000000000000,1\n",
    );
    let listing = "slack=-1233\nwire=482\nsinks=3\nleaf=1,5\nleaf=2,4\nleaf=3,4\n\
                   node=4,5,-100,50\nnode=5,0,9,9\n";
    let given = texts(&net(3, [one, late, early]), listing);
    assert_eq!(plan(given.0.as_bytes(), &mut []).unwrap_err().number, 5);
    let without_1 = "slack=-1154\nwire=441\nsinks=2\nleaf=1,3\nleaf=2,3\nnode=3,0,-100,50\n";
    let without_2 = "slack=-79\nwire=62\nsinks=2\nleaf=1,3\nleaf=2,3\nnode=3,0,9,9\n";
    let without_3 = "slack=-204\nwire=56\nsinks=2\nleaf=1,3\nleaf=2,3\nnode=3,0,9,9\n";
    leaves(&given, 1, &net(2, [late, early, ""]), without_1);
    leaves(&given, 2, &net(2, [one, early, ""]), without_2);
    leaves(&given, 3, &net(2, [one, late, ""]), without_3);

    let given = left(&given, 2).unwrap();
    let early_alone = "slack=999999999999959\nwire=11\nsinks=1\nleaf=1,0\n";
    let one_alone = "slack=50\nwire=0\nsinks=1\nleaf=1,0\n";
    leaves(&given, 1, &net(1, [early, "", ""]), early_alone);
    leaves(&given, 2, &net(1, [one, "", ""]), one_alone);
    assert_eq!(left(&left(&given, 1).unwrap(), 1), Err(ONLY_SINK));
}

/// Sinks of these weights at the root, sink k on the k-th branch point from the
/// root down and the last one on the last, as its last but one is.
fn chain(weights: &[usize]) -> Texts {
    let n = weights.len();
    let mut net = format!("root=0,0\nbranch=3\nwire=1,1\nneed=0\nsinks={n}\n");
    let mut listing = format!("slack={}\nwire=0\nsinks={n}\n", -3 * (n as i64 - 1));
    for (k, weight) in (1..).zip(weights) {
        net += &format!("sink=0,0,0,{weight}\n");
        let parent = if n == 1 { 0 } else { n + k.min(n - 1) };
        listing += &format!("leaf={k},{parent}\n");
    }
    for k in n + 1..2 * n {
        let parent = if k == n + 1 { 0 } else { k - 1 };
        listing += &format!("node={k},{parent},0,0\n");
    }
    (net, listing)
}

/// A chain without a sink is a chain, whichever sink it is; its weights tell that
/// it is this one. Numbers lose digits on the way.
#[test]
fn each_sink_of_a_chain() {
    for n in [2, 3, 4, 5, 6, 9, 10, 11, 50, 51, 52, 100, 101, 102, 512] {
        let weights: Vec<usize> = (1..=n).collect();
        let given = chain(&weights);
        for sink in 1..=n {
            let mut kept = weights.clone();
            kept.remove(sink - 1);
            assert_eq!(left(&given, sink), Ok(chain(&kept)), "{sink} of {n}");
        }
    }
}

/// From the most sinks down to the last, each time another.
#[test]
fn down_to_one_sink() {
    let mut weights: Vec<usize> = (1..=512).collect();
    let mut given = chain(&weights);
    while weights.len() > 1 {
        let sink = 1 + 3701 % weights.len();
        weights.remove(sink - 1);
        given = left(&given, sink).unwrap();
        assert_eq!(given, chain(&weights));
        judge(given.0.as_bytes(), given.1.as_bytes()).unwrap();
    }
    assert_eq!(left(&given, 1), Err(ONLY_SINK));
}

/// What the outputs have after a call that lends so many bytes of each.
fn lent(net_length: usize, length: usize) -> (Result<Deletion, Refusal>, Vec<u8>, Vec<u8>) {
    let (mut net_out, mut out) = (vec![7; net_length], vec![9; length]);
    let (net, listing) = (NET.as_bytes(), LISTING.as_bytes());
    let found = delete_pin(net, listing, 3, &mut net_out, &mut out);
    (found, net_out, out)
}

/// Sink 3's deletion leaves 73 and 56 bytes. Where one output is long enough and
/// the other is not, neither is written.
#[test]
fn lengths_of_the_outputs() {
    let (net, listing) = left(&texts(NET, LISTING), 3).unwrap();
    assert_eq!((net.len(), listing.len()), (73, 56));
    let due = Deletion {
        net_bytes: 73,
        listing_bytes: 56,
    };
    for (net_length, length) in [(73, 56), (74, 56), (73, 57), (200, 300)] {
        let (found, net_out, out) = lent(net_length, length);
        assert_eq!(found, Ok(due));
        assert_eq!(&net_out[..73], net.as_bytes());
        assert_eq!(&out[..56], listing.as_bytes());
        assert_eq!(net_out[73..], vec![7; net_length - 73]);
        assert_eq!(out[56..], vec![9; length - 56]);
    }
    for (net_length, length) in [
        (72, 56),
        (73, 55),
        (72, 55),
        (0, 56),
        (73, 0),
        (0, 0),
        (72, 300),
        (200, 55),
        (NET_LENGTH, 0),
        (0, LISTING_LENGTH),
    ] {
        let (found, net_out, out) = lent(net_length, length);
        assert_eq!(found, Err(TOO_SHORT));
        assert_eq!(net_out, vec![7; net_length]);
        assert_eq!(out, vec![9; length]);
    }
}

/// Outputs that are long enough, and outputs of no bytes; all figures are preset,
/// so that one which is not written shows.
fn told(net: &str, listing: &str, sink: usize, refusal: Refusal) {
    for length in [NET_LENGTH, 0] {
        let mut f = DeletionFigures {
            number: 99,
            text: 99,
            line: 99,
            net_bytes: 99,
            listing_bytes: 99,
        };
        let (mut net_out, mut out) = (vec![7; length], vec![9; length]);
        let (net, listing) = (net.as_bytes(), listing.as_bytes());
        delete_pin_figures(net, listing, sink, &mut net_out, &mut out, &mut f);
        let due = DeletionFigures {
            number: refusal.number,
            text: refusal.text,
            line: refusal.line,
            net_bytes: 0,
            listing_bytes: 0,
        };
        assert_eq!(f, due, "sink {sink}");
        assert_eq!((net_out, out), (vec![7; length], vec![9; length]));
    }
}

/// Numbers that are no sink's; some would be 1 in fewer bits.
fn others(n: usize) -> Vec<usize> {
    let mut all = vec![0, n + 1, 2 * n, 512, 513, usize::MAX - 1, usize::MAX];
    all.extend((10..usize::BITS).map(|bit| 1 << bit | 1));
    all.retain(|sink| !(1..=n).contains(sink));
    all
}

/// 15 goes before 6.
#[test]
fn sinks_that_the_net_has_not() {
    for sink in others(3) {
        told(NET, LISTING, sink, NOT_A_SINK);
    }
    let (net, listing) = chain(&[1; 512]);
    for sink in others(512) {
        told(&net, &listing, sink, NOT_A_SINK);
    }
}

/// 15 goes before 16, and 16 before 6.
#[test]
fn the_only_sink() {
    let (net, listing) = chain(&[1]);
    told(&net, &listing, 1, ONLY_SINK);
    for sink in others(1) {
        told(&net, &listing, sink, NOT_A_SINK);
    }
}

/// Whatever else is given.
#[test]
fn judges_refusals_go_before() {
    for (number, net, listing) in refused() {
        let refusal = judge(net.as_bytes(), listing.as_bytes()).unwrap_err();
        assert_eq!(refusal.number, number, "{listing}");
        for sink in [0, 1, 3, 4, usize::MAX] {
            told(&net, &listing, sink, refusal);
        }
    }
    let (net, listing) = chain(&[1]);
    let wrong = listing.replace("slack=0", "slack=1");
    let refusal = judge(net.as_bytes(), wrong.as_bytes()).unwrap_err();
    assert_eq!((refusal.number, refusal.text, refusal.line), (11, 2, 1));
    for sink in [0, 1, 2] {
        told(&net, &wrong, sink, refusal);
    }
}

/// Every figure is written where nothing is refused, too.
#[test]
fn every_figure_is_written() {
    let mut f = DeletionFigures {
        number: 99,
        text: 99,
        line: 99,
        net_bytes: 9999,
        listing_bytes: 9999,
    };
    let (mut net_out, mut out) = ([0; 73], [0; 56]);
    let (net, listing) = (NET.as_bytes(), LISTING.as_bytes());
    delete_pin_figures(net, listing, 3, &mut net_out, &mut out, &mut f);
    let due = DeletionFigures {
        net_bytes: 73,
        listing_bytes: 56,
        ..DeletionFigures::default()
    };
    assert_eq!(f, due);
}

#[test]
fn refuses_in_plain_words() {
    assert_eq!(
        NOT_A_SINK.to_string(),
        "sink: the net has no sink of this number (refusal 15)"
    );
    assert_eq!(
        ONLY_SINK.to_string(),
        "sink: the net has no other sink (refusal 16)"
    );
}
