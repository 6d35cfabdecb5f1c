//! Marked scores: their bits, the ends of every range, and what is refused.

mod net_a;

use net_a::{refused, LISTING, NET, SHORT};
use repeater_tree::{
    judge, score, score_figures, Refusal, ScoreFigures, CAP_LIMIT, LATE_LIMIT, PARTS,
};

/// The least slack that is scored.
const LOWEST: i64 = -LATE_LIMIT;

const NOT_SCORED: Refusal = Refusal {
    number: 14,
    text: 0,
    line: 0,
};

fn scored(listing: &str, alpha: i64, beta: i64, cap: i64) -> Result<f64, Refusal> {
    score(NET.as_bytes(), listing.as_bytes(), alpha, beta, cap)
}

/// The score of a tree of one straight wire, with this worst slack; the sink
/// stands so far from the root.
fn one_sink(slack: i64, wire: i64, [alpha, beta, cap]: [i64; 3]) -> Result<f64, Refusal> {
    let required = slack + wire;
    let head = "root=0,0\nbranch=20\nwire=1,1\nneed=0\nsinks=1\n";
    let net = format!("{head}sink={wire},0,{required},1\n");
    let listing = format!("slack={slack}\nwire={wire}\nsinks=1\nleaf=1,0\n");
    score(net.as_bytes(), listing.as_bytes(), alpha, beta, cap)
}

/// Minus zero is told from plus zero.
fn same(found: Result<f64, Refusal>, due: f64) {
    assert_eq!(found.map(f64::to_bits), Ok(due.to_bits()), "{found:?}");
}

#[test]
fn scores_a_plan() {
    same(scored(LISTING, 1024, 1024, 0), -32.0);
    same(scored(LISTING, 0, 1024, 0), -32.0);
    same(scored(LISTING, 1024, 1, CAP_LIMIT), -32.0 / 1024.0);
    same(scored(LISTING, 1024, 0, 0), 0.0);
    same(scored(SHORT, 1024, 512, 0), -23.0);
    same(scored(SHORT, 1, 0, 0), -10.0 / 1024.0);
    same(scored(SHORT, 1024, 1, 0), -10.0 - 26.0 / 1024.0);
}

/// The plan has 10 more slack, the short tree 6 less wire.
#[test]
fn ranks_two_trees() {
    let both = |alpha, beta| {
        let plan = scored(LISTING, alpha, beta, 0).unwrap();
        (plan, scored(SHORT, alpha, beta, 0).unwrap())
    };
    let (plan, short) = both(615, 1024);
    assert!(plan > short);
    let (plan, short) = both(614, 1024);
    assert!(plan < short);
    let (plan, short) = both(3, 5);
    assert!(plan == short);
}

#[test]
fn slack_beyond_the_cap_does_not_count() {
    for (slack, cap, due) in [
        (6, 7, 6.0),
        (7, 7, 7.0),
        (8, 7, 7.0),
        (1_000_000_000_000_000, 7, 7.0),
        (1_000_000_000_000_000, 0, 0.0),
        (CAP_LIMIT + 1, CAP_LIMIT, CAP_LIMIT as f64),
        (CAP_LIMIT - 1, CAP_LIMIT, (CAP_LIMIT - 1) as f64),
        (-8, 0, -8.0),
    ] {
        same(one_sink(slack, 0, [PARTS, PARTS, cap]), due);
    }
}

/// Near both ends, with last digits that would be rounded away where the two
/// terms were not exact.
#[test]
fn every_score_is_exact() {
    for slack in [LOWEST, LOWEST + 1, -7, -1, 0, 1, 7, CAP_LIMIT - 1] {
        for wire in [0, 1, 7, 39_999_999, 40_000_000] {
            for alpha in [0, 1, 3, 512, 1023, 1024] {
                for beta in [0, 1, 3, 512, 1023, 1024] {
                    for cap in [0, 1, 6, CAP_LIMIT - 2, CAP_LIMIT] {
                        let whole = alpha * slack.min(cap) - beta * wire;
                        let found = one_sink(slack, wire, [alpha, beta, cap]);
                        assert_eq!(found.unwrap() * 1024.0, whole as f64);
                        same(found, whole as f64 / 1024.0);
                    }
                }
            }
        }
    }
}

/// Nothing times a negative slack, and two terms that cancel.
#[test]
fn zero_is_plus_zero() {
    for slack in [LOWEST, -1, 0, 1] {
        same(one_sink(slack, 0, [0, 0, 1]), 0.0);
        same(one_sink(slack, 0, [0, 1024, 1]), 0.0);
        same(one_sink(slack, 5, [0, 0, 1]), 0.0);
    }
    same(one_sink(-1, 0, [1024, 0, 0]), -1.0);
    same(one_sink(9, 0, [1024, 1024, 0]), 0.0);
    same(one_sink(5, 5, [1024, 1024, 5]), 0.0);
    same(one_sink(3, 1, [1, 3, 3]), 0.0);
}

#[test]
fn ranges_of_what_is_given() {
    for part in [0, 1, PARTS - 1, PARTS] {
        assert!(scored(LISTING, part, 1, 0).is_ok());
        assert!(scored(LISTING, 1, part, 0).is_ok());
    }
    for cap in [0, 1, CAP_LIMIT - 1, CAP_LIMIT] {
        assert!(scored(LISTING, 1, 1, cap).is_ok());
    }
    for part in [-1, PARTS + 1, i64::MIN, i64::MAX] {
        assert_eq!(scored(LISTING, part, 1, 0), Err(NOT_SCORED));
        assert_eq!(scored(LISTING, 1, part, 0), Err(NOT_SCORED));
        assert_eq!(scored(LISTING, part, part, part), Err(NOT_SCORED));
    }
    for cap in [-1, CAP_LIMIT + 1, LOWEST, LOWEST - 1, i64::MIN, i64::MAX] {
        assert_eq!(scored(LISTING, 1, 1, cap), Err(NOT_SCORED));
        assert_eq!(scored(LISTING, 0, 0, cap), Err(NOT_SCORED));
    }
}

/// Also where alpha is 0, and the slack does not count.
#[test]
fn the_lowest_slack() {
    for cap in [0, CAP_LIMIT] {
        same(one_sink(LOWEST, 0, [PARTS, PARTS, cap]), LOWEST as f64);
        same(one_sink(LOWEST, 4, [0, PARTS, cap]), -4.0);
        for alpha in [0, 1, PARTS] {
            for slack in [LOWEST - 1, -1_000_000_000_000_000] {
                let found = one_sink(slack, 0, [alpha, 1, cap]);
                assert_eq!(found, Err(NOT_SCORED));
            }
        }
    }
}

#[test]
fn refuses_in_plain_words() {
    assert_eq!(
        NOT_SCORED.to_string(),
        "score: alpha, beta or the cap is out of range, or the slack too low (refusal 14)"
    );
}

/// Whatever else is given; the score beside a refusal is plus zero.
#[test]
fn judges_refusals_go_before() {
    for (number, net, listing) in refused() {
        let refusal = judge(net.as_bytes(), listing.as_bytes()).unwrap_err();
        assert_eq!(refusal.number, number, "{listing}");
        for given in [0, 1, -1, i64::MIN, i64::MAX] {
            let mut f = ScoreFigures {
                number: 99,
                text: 99,
                line: 99,
                score: 9.5,
            };
            let (net, listing) = (net.as_bytes(), listing.as_bytes());
            score_figures(net, listing, given, given, given, &mut f);
            assert_eq!(
                (f.number, f.text, f.line),
                (number, refusal.text, refusal.line)
            );
            assert_eq!(f.score.to_bits(), 0);
        }
    }
}

/// Every figure is written, whether the score is refused or given.
#[test]
fn every_figure_is_written() {
    for (alpha, number, due) in [(1025, 14, 0.0), (1024, 0, -32.0)] {
        let mut f = ScoreFigures {
            number: 99,
            text: 99,
            line: 99,
            score: 9.5,
        };
        score_figures(NET.as_bytes(), LISTING.as_bytes(), alpha, 1024, 0, &mut f);
        assert_eq!((f.number, f.text, f.line), (number, 0, 0));
        assert_eq!(f.score.to_bits(), f64::to_bits(due));
    }
}
