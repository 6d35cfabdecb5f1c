//! Marked nets through the safe calls.

use repeater_tree::{
    judge, plan, plan_short, plan_weighted, Measures, Plan, Refusal, PIN_LIMIT, WEIGHT_LIMIT,
};

const LISTING: &[u8] = b"slack=0\nwire=32\nsinks=3\nleaf=1,5\nleaf=2,5\nleaf=3,4\n\
node=4,0,4,0\nnode=5,4,4,0\n";

/// A with weights of 1.
fn net(need: &str) -> Vec<u8> {
    weighed(need, ["1", "1", "1"])
}

/// A with its weights so spelt.
fn weighed(need: &str, [one, two, three]: [&str; 3]) -> Vec<u8> {
    format!(
        "root=0,0\nbranch=20\nwire=2,2\nneed={need}\nsinks=3\n\
         sink=10,0,100,{one}\nsink=4,6,60,{two}\nsink=10,10,70,{three}\n"
    )
    .into_bytes()
}

#[test]
fn plans_and_judges() {
    let mut out = [7; 200];
    let plan = plan(&net("0"), &mut out).unwrap();
    assert_eq!(
        plan,
        Plan {
            slack: 0,
            wire: 32,
            bytes: LISTING.len()
        }
    );
    assert_eq!(&out[..plan.bytes], LISTING);
    assert!(out[plan.bytes..].iter().all(|&b| b == 7));
    let measures = judge(&net("0"), LISTING).unwrap();
    assert_eq!(
        measures,
        Measures {
            slack: 0,
            wire: 32,
            best: 0
        }
    );
}

/// A's short tree has less wire than its plan, and less slack; a need that no
/// tree has is not looked at.
#[test]
fn plans_a_short_tree() {
    let listing = b"slack=-10\nwire=26\nsinks=3\nleaf=1,5\nleaf=2,4\nleaf=3,5\n\
node=4,0,4,0\nnode=5,4,10,0\n";
    for need in ["0", "1"] {
        let mut out = [7; 200];
        let short = plan_short(&net(need), &mut out).unwrap();
        assert_eq!((short.slack, short.wire), (-10, 26));
        assert_eq!(&out[..short.bytes], listing);
        assert!(out[short.bytes..].iter().all(|&b| b == 7));
        let measures = judge(&net(need), listing).unwrap();
        assert_eq!((measures.slack, measures.wire, measures.best), (-10, 26, 0));
    }
    let mut out = [7; 79];
    let refusal = plan_short(&net("0"), &mut out).unwrap_err();
    assert_eq!((refusal.number, refusal.text, refusal.line), (6, 0, 0));
    assert_eq!(out, [7; 79]);
}

/// A's third plan by two choices of weights; a need that no tree has is not
/// looked at.
#[test]
fn plans_by_weights() {
    for (weights, slack, tree) in [
        (
            ["5", "1", "1"],
            -10,
            "leaf=1,5\nleaf=2,4\nleaf=3,4\nnode=4,5,4,6\nnode=5,0,4,0\n",
        ),
        (
            ["1", "1", "1000"],
            0,
            "leaf=1,4\nleaf=2,4\nleaf=3,5\nnode=4,5,4,0\nnode=5,0,4,0\n",
        ),
    ] {
        for need in ["0", "1"] {
            let net = weighed(need, weights);
            let mut out = [7; 200];
            let weighted = plan_weighted(&net, &mut out).unwrap();
            let wire = weighted.wire;
            let listing = format!("slack={slack}\nwire={wire}\nsinks=3\n{tree}");
            assert_eq!(weighted.slack, slack);
            assert_eq!(&out[..weighted.bytes], listing.as_bytes());
            assert!(out[weighted.bytes..].iter().all(|&b| b == 7));
            let measures = judge(&net, listing.as_bytes()).unwrap();
            assert_eq!(
                (measures.slack, measures.wire, measures.best),
                (slack, wire, 0)
            );
        }
    }
    let mut out = [7; 78];
    let refusal = plan_weighted(&weighed("0", ["5", "1", "1"]), &mut out).unwrap_err();
    assert_eq!((refusal.number, refusal.text, refusal.line), (6, 0, 0));
    assert_eq!(out, [7; 78]);
}

/// The first two plans are those of weights of 1, whatever the weights.
#[test]
fn other_plans_ignore_weights() {
    for planner in [plan, plan_short] {
        let (mut one, mut two) = ([7; 200], [7; 200]);
        let ones = planner(&net("0"), &mut one).unwrap();
        let others = planner(&weighed("0", ["5", "1000", "3"]), &mut two).unwrap();
        assert_eq!((ones, one), (others, two));
    }
}

#[test]
fn refuses_other_weights() {
    let over = (WEIGHT_LIMIT + 1).to_string();
    for (weight, number) in [
        ("", 2),
        ("1,1", 2),
        ("01", 2),
        ("0", 3),
        ("-1", 3),
        (&over, 3),
    ] {
        let net = weighed("0", ["1", weight, "1"]);
        let refusal = plan_weighted(&net, &mut [0; 200]).unwrap_err();
        assert_eq!((refusal.number, refusal.text, refusal.line), (number, 1, 7));
        for planner in [plan, plan_short] {
            assert_eq!(planner(&net, &mut [0; 200]).unwrap_err(), refusal);
        }
        assert_eq!(judge(&net, b"").unwrap_err(), refusal);
    }
    let limit = WEIGHT_LIMIT.to_string();
    assert!(plan_weighted(&weighed("0", [&limit; 3]), &mut [0; 200]).is_ok());
}

/// A line of three numbers, as before weights, is misspelt.
#[test]
fn refuses_a_sink_without_a_weight() {
    let net = String::from_utf8(net("0"))
        .unwrap()
        .replace("60,1\n", "60\n");
    let refusal = plan_weighted(net.as_bytes(), &mut [0; 200]).unwrap_err();
    assert_eq!((refusal.number, refusal.text, refusal.line), (2, 1, 7));
}

/// Every length and time of net A 1,000 times as large: the same parents.
#[test]
fn plans_alike_in_another_unit() {
    let net = b"root=0,0\nbranch=20000\nwire=2,2\nneed=0\nsinks=3\n\
sink=10000,0,100000,1\nsink=4000,6000,60000,1\nsink=10000,10000,70000,1\n";
    let listing = b"slack=0\nwire=32000\nsinks=3\nleaf=1,5\nleaf=2,5\nleaf=3,4\n\
node=4,0,4000,0\nnode=5,4,4000,0\n";
    let mut out = [7; 200];
    let plan = plan(net, &mut out).unwrap();
    assert_eq!((plan.slack, plan.wire), (0, 32_000));
    assert_eq!(&out[..plan.bytes], listing);
    let measures = judge(net, listing).unwrap();
    assert_eq!((measures.wire, measures.best), (32_000, 0));
}

#[test]
fn refuses_in_plain_words() {
    let refusal = plan(&net("1"), &mut [0; 200]).unwrap_err();
    assert_eq!(
        refusal,
        Refusal {
            number: 5,
            text: 1,
            line: 4
        }
    );
    assert_eq!(
        refusal.to_string(),
        "net line 4: no legal tree has the needed slack (refusal 5)"
    );
    let refusal = plan(&net("0"), &mut [0; 70]).unwrap_err();
    assert_eq!(
        refusal.to_string(),
        "output: the output is shorter than the listing (refusal 6)"
    );
}

/// Net A's pins, later due, with line 3 so spelt.
fn net_with(wire: &str) -> Vec<u8> {
    format!(
        "root=0,0\nbranch=20\n{wire}\nneed=0\nsinks=3\n\
         sink=10,0,100,1\nsink=4,6,110,1\nsink=10,10,150,1\n"
    )
    .into_bytes()
}

/// Neither factor alone gives the tree of both, and they do not change places.
#[test]
fn plans_by_both_factors() {
    for (wire, slack, length, tree) in [
        (
            "wire=2,6",
            30,
            26,
            "leaf=1,5\nleaf=2,4\nleaf=3,5\nnode=4,0,4,0\nnode=5,4,10,0\n",
        ),
        (
            "wire=2,2",
            50,
            26,
            "leaf=1,4\nleaf=2,5\nleaf=3,5\nnode=4,0,4,0\nnode=5,4,4,6\n",
        ),
        (
            "wire=6,6",
            0,
            32,
            "leaf=1,5\nleaf=2,5\nleaf=3,4\nnode=4,0,4,0\nnode=5,4,4,0\n",
        ),
        (
            "wire=6,2",
            20,
            26,
            "leaf=1,4\nleaf=2,5\nleaf=3,5\nnode=4,0,4,0\nnode=5,4,4,6\n",
        ),
    ] {
        let net = net_with(wire);
        let mut out = [7; 200];
        let plan = plan(&net, &mut out).unwrap();
        let listing = format!("slack={slack}\nwire={length}\nsinks=3\n{tree}");
        assert_eq!(&out[..plan.bytes], listing.as_bytes());
        let measures = judge(&net, listing.as_bytes()).unwrap();
        assert_eq!((plan.slack, plan.wire), (slack, length));
        assert_eq!(
            (measures.slack, measures.wire, measures.best),
            (slack, length, slack)
        );
    }
}

#[test]
fn refuses_other_factors() {
    for (wire, number) in [
        ("wire=2", 2),
        ("wire=0", 2),
        ("wire=2,6,1", 2),
        ("wire=0,x", 2),
        ("wire=0,6", 3),
        ("wire=2,0", 3),
        ("wire=10001,6", 3),
        ("wire=2,10001", 3),
    ] {
        let refusal = plan(&net_with(wire), &mut [0; 200]).unwrap_err();
        assert_eq!((refusal.number, refusal.text, refusal.line), (number, 1, 3));
        assert_eq!(judge(&net_with(wire), b"").unwrap_err(), refusal);
    }
}

/// A net of one sink, so far from the root.
fn pin_at(distance: u64) -> Vec<u8> {
    format!(
        "root=0,0\nbranch=20\nwire=2,2\nneed=-2000000000000000\nsinks=1\nsink=1,{},100,1\n",
        distance - 1
    )
    .into_bytes()
}

#[test]
fn refuses_far_pins() {
    let mut out = [7; 200];
    assert_eq!(plan(&pin_at(PIN_LIMIT), &mut out).unwrap().wire, PIN_LIMIT);
    let mut out = [7; 200];
    let refusal = plan(&pin_at(PIN_LIMIT + 1), &mut out).unwrap_err();
    assert_eq!(
        refusal.to_string(),
        "net line 6: the sink is too far from the root (refusal 13)"
    );
    assert_eq!(out, [7; 200]);
    assert_eq!(judge(&pin_at(PIN_LIMIT + 1), b"").unwrap_err(), refusal);
}

#[test]
fn empty_texts() {
    assert_eq!(
        plan(&[], &mut []).unwrap_err(),
        Refusal {
            number: 2,
            text: 1,
            line: 1
        }
    );
    assert_eq!(
        judge(&net("0"), &[]).unwrap_err(),
        Refusal {
            number: 2,
            text: 2,
            line: 1
        }
    );
}
