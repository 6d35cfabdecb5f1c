//! Request 8, the router's score: trees worked out by hand, the ends of every
//! range, and random nets, on both references.

use crate::answer::{Answer, Score};
use crate::marked_tests::{a, judge, one, plan};
use crate::random_tests::{weighed, Random};
use crate::terms::Terms;
use crate::{binary64, plain, score};

/// The same bits from both references.
fn scored(net: &str, listing: &str, terms: Terms) -> Score {
    let (net, listing) = (net.as_bytes(), listing.as_bytes());
    let answer = score::score(net, listing, terms);
    assert_eq!(answer, plain::score(net, listing, terms), "{terms:?}");
    answer
}

/// Number, text and line; the score is plus zero.
fn refused(net: &str, listing: &str, terms: Terms) -> (u8, u8, usize) {
    let answer = scored(net, listing, terms);
    assert_eq!(answer.bits, 0);
    (answer.number, answer.text, answer.line)
}

/// A net and its tree.
type Texts = (String, String);

/// By A, B and the cap. Minus zero is another number.
fn check((net, listing): &Texts, (alpha, beta, cap): (i64, i64, i64), expected: f64) {
    let answer = scored(net, listing, Terms::new(alpha, beta, cap));
    let told = (answer.number, answer.text, answer.line);
    assert_eq!(told, (0, 0, 0), "{alpha} {beta} {cap}");
    let shown = f64::from_bits(answer.bits);
    assert_eq!(
        answer.bits,
        expected.to_bits(),
        "{alpha} {beta} {cap}: {shown} for {expected}"
    );
}

fn check_14((net, listing): &Texts, alpha: i64, beta: i64, cap: i64) {
    let terms = Terms::new(alpha, beta, cap);
    assert_eq!(refused(net, listing, terms), (14, 0, 0), "{terms:?}");
}

/// The end of the cap, and of min(..) below zero.
const END: i64 = 1_000_000_000_000;
const CAPS: [i64; 5] = [0, 1, 31, 32, END];

/// Slack 0, wire 32.
fn net_a() -> Texts {
    (a("0"), plan(&a("0")).1)
}

/// One sink so far from the root, with this slack.
fn alone(distance: i64, slack: i64) -> Texts {
    let arrival = slack + distance;
    let net =
        format!("root=0,0\nbranch=20\nwire=1,1\nneed=0\nsinks=1\nsink={distance},0,{arrival},1\n");
    let listing = format!("slack={slack}\nwire={distance}\nsinks=1\nleaf=1,0\n");
    let judged = judge(&net, &listing);
    assert_eq!(judged, Answer::done(slack, distance as u64, slack));
    (net, listing)
}

/// Its slack is 0, so only the wire counts, whatever the cap.
#[test]
fn the_wire_of_net_a() {
    for cap in CAPS {
        for alpha in [0, 1, 512, 1023, 1024] {
            check(&net_a(), (alpha, 1024, cap), -32.0);
            check(&net_a(), (alpha, 512, cap), -16.0);
            check(&net_a(), (alpha, 1, cap), -0.03125);
            check(&net_a(), (alpha, 3, cap), -0.09375);
            check(&net_a(), (alpha, 1023, cap), -31.96875);
            check(&net_a(), (alpha, 0, cap), 0.0);
        }
    }
}

/// A's sinks 2 and 3 under branch point 4 at 4,6: slack -10, wire 26.
#[test]
fn another_tree_of_net_a() {
    let listing = "slack=-10\nwire=26\nsinks=3\nleaf=1,5\nleaf=2,4\nleaf=3,4\n\
                   node=4,5,4,6\nnode=5,0,4,0\n";
    let texts = (a("0"), listing.to_string());
    for cap in CAPS {
        check(&texts, (1024, 1024, cap), -36.0);
        check(&texts, (512, 512, cap), -18.0);
        check(&texts, (1024, 0, cap), -10.0);
        check(&texts, (1, 0, cap), -0.009_765_625);
        check(&texts, (0, 1024, cap), -26.0);
        check(&texts, (0, 0, cap), 0.0);
    }
}

/// Two sinks of own slack 5, one at the root and one beside it: slack 2, wire 1.
#[test]
fn caps_about_the_slack() {
    let net = "root=0,0\nbranch=3\nwire=1,1\nneed=2\nsinks=2\nsink=0,0,5,1\nsink=1,0,6,1\n";
    let texts = (net.to_string(), plan(net).1);
    for (cap, score) in [(0, -1.0), (1, 0.0), (2, 1.0), (3, 1.0), (END, 1.0)] {
        check(&texts, (1024, 1024, cap), score);
    }
    for (cap, score) in [(0, -1.0), (1, -0.5), (2, 0.0), (3, 0.0), (END, 0.0)] {
        check(&texts, (512, 1024, cap), score);
    }
    for (cap, score) in [(0, 0.0), (1, 1.0), (2, 2.0), (3, 2.0)] {
        check(&texts, (1024, 0, cap), score);
    }
}

/// A × min(..) is B × wire, or both are nothing.
#[test]
fn zero_is_plus_zero() {
    check(&alone(7, 7), (1024, 1024, 7), 0.0);
    check(&alone(7, 7), (1, 1, END), 0.0);
    check(&alone(7, 8), (1, 1, 7), 0.0);
    check(&alone(7, 14), (512, 1024, 14), 0.0);
    check(&alone(12, 9), (1000, 750, 9), 0.0);
    check(&alone(40_000_000, END), (1, 1024, 40_960_000_000), 0.0);
    for slack in [-END, -8, -1, 0, 1, END, 999 * END] {
        for distance in [0, 7, 40_000_000] {
            check(&alone(distance, slack), (0, 0, END), 0.0);
            check(&alone(distance, slack), (0, 0, 0), 0.0);
        }
        for beta in [0, 1, 1024] {
            check(&alone(0, slack), (0, beta, 0), 0.0);
            check(&alone(0, slack.max(0)), (1024, beta, 0), 0.0);
        }
    }
    check(&alone(7, 0), (1024, 0, END), 0.0);
}

/// The least 1024ths beside zero.
#[test]
fn next_to_zero() {
    check(&alone(7, 7), (1024, 1023, 7), 0.006_835_937_5);
    check(&alone(1, 1), (2, 1, 9), 0.000_976_562_5);
    check(&alone(1, 1), (1, 2, 9), -0.000_976_562_5);
    check(&alone(0, -1), (1, 0, 9), -0.000_976_562_5);
    check(&alone(1, 0), (1024, 1, 9), -0.000_976_562_5);
}

#[test]
fn the_lowest_slack() {
    for cap in [0, 1, END] {
        check(&alone(0, -END), (1024, 1024, cap), -1e12);
        check(&alone(0, -END), (1, 0, cap), -976_562_500.0);
        check(&alone(0, -END), (0, 0, cap), 0.0);
        check(&alone(0, 1 - END), (1024, 0, cap), -999_999_999_999.0);
        check(
            &alone(40_000_000, -END),
            (1024, 1024, cap),
            -1_000_040_000_000.0,
        );
        for slack in [-END - 1, -END - 2, -2 * END, -1000 * END] {
            for (alpha, beta) in [(1024, 1024), (1, 0), (0, 1), (0, 0)] {
                check_14(&alone(0, slack), alpha, beta, cap);
            }
        }
    }
}

#[test]
fn the_largest_slack() {
    for slack in [END, END + 1, 2 * END, 1000 * END] {
        check(&alone(0, slack), (1024, 0, END), 1e12);
        check(&alone(0, slack), (1024, 1024, END - 1), 999_999_999_999.0);
        check(&alone(0, slack), (1, 0, END), 976_562_500.0);
        check(&alone(0, slack), (1024, 0, 0), 0.0);
    }
    check(&alone(0, END - 1), (1024, 0, END), 999_999_999_999.0);
    // 1,022,999,959,998,978 of 1024ths.
    let texts = alone(39_999_999, END - 1);
    check(&texts, (1023, 1, END), 999_023_398_436.501_953_125);
}

/// In range the last passes, and whatever is past it or far out is refused.
#[test]
fn ends_of_each_range() {
    let far = [i64::MIN, i64::MIN + 1, -END, i64::MAX - 1, i64::MAX];
    for texts in [net_a(), alone(7, -8), alone(0, END)] {
        for last in [0, 1024] {
            assert_eq!(number(&texts, (last, 9, 9)), 0);
            assert_eq!(number(&texts, (9, last, 9)), 0);
        }
        let past = [-1025, -1024, -1, 1025, 2048, 1 << 32, 1 << 53];
        for out in past.into_iter().chain(far) {
            check_14(&texts, out, 9, 9);
            check_14(&texts, 9, out, 9);
            check_14(&texts, out, out, out);
        }
        for last in [0, END] {
            assert_eq!(number(&texts, (9, 9, last)), 0);
        }
        for out in [-1, END + 1, 1 << 53].into_iter().chain(far) {
            check_14(&texts, 9, 9, out);
            check_14(&texts, 0, 0, out);
        }
    }
}

fn number((net, listing): &Texts, (alpha, beta, cap): (i64, i64, i64)) -> u8 {
    scored(net, listing, Terms::new(alpha, beta, cap)).number
}

/// Good terms, and some of which each is out of range.
fn all_terms() -> Vec<Terms> {
    let mut all = vec![Terms::new(1024, 1, END), Terms::new(0, 0, 0)];
    for out in [i64::MIN, -1, END + 1, i64::MAX] {
        all.push(Terms::new(out, 1, 1));
        all.push(Terms::new(1, out, 1));
        all.push(Terms::new(1, 1, out));
        all.push(Terms::new(out, out, out));
    }
    all
}

/// Whatever the terms, judge's refusal is told.
#[test]
fn judge_refuses_first() {
    let (net, listing) = net_a();
    let with = |from: &str, to: &str| (net.clone(), listing.replace(from, to));
    let net_with = |from: &str, to: &str| (net.replace(from, to), listing.clone());
    let long = "x".repeat(32_769);
    let (low_net, low) = alone(0, -END - 1);
    for (texts, told) in [
        ((long.clone(), listing.clone()), (1, 1, 0)),
        ((net.clone(), long), (1, 2, 0)),
        ((String::new(), listing.clone()), (2, 1, 1)),
        ((net.clone(), String::new()), (2, 2, 1)),
        (net_with("branch=20", "branch=0"), (3, 1, 2)),
        (net_with("70,1\n", "70,1\nx"), (4, 1, 9)),
        (with("5,4,4,0\n", "5,4,4,0\n\n"), (4, 2, 9)),
        (with("sinks=3", "sinks=2"), (7, 2, 3)),
        (with("leaf=2,5", "leaf=2,3"), (8, 2, 5)),
        (with("leaf=2,5", "leaf=2,4"), (9, 2, 7)),
        (with("leaf=3,4\nnode=4,0", "leaf=3,0\nnode=4,4"), (10, 2, 4)),
        (with("slack=0", "slack=1"), (11, 2, 1)),
        (with("wire=32", "wire=31"), (12, 2, 2)),
        ((one("0,0", "40000000,1"), listing.clone()), (13, 1, 6)),
        (
            (low_net.clone(), low.replace("wire=0", "wire=1")),
            (12, 2, 2),
        ),
        ((low_net, low.replace("slack=-", "slack=")), (11, 2, 1)),
    ] {
        for terms in all_terms() {
            assert_eq!(refused(&texts.0, &texts.1, terms), told, "{terms:?}");
        }
    }
}

/// 1,024 times the score is the whole number, from the judge's slack and wire.
#[test]
fn random_scores_are_exact() {
    let mut r = Random(80);
    for round in 0..600 {
        let net = String::from_utf8(weighed(&mut r, round).text()).unwrap();
        let listing = plan(&net).1;
        let judged = judge(&net, &listing);
        for _ in 0..8 {
            let cap = [0, END, r.below(END), judged.slack.clamp(0, END)][r.below(4) as usize];
            let terms = Terms::new(r.below(1025), r.below(1025), cap);
            let least = judged.slack.min(cap);
            let answer = scored(&net, &listing, terms);
            assert_eq!(answer.number, if least < -END { 14 } else { 0 });
            if answer.number == 0 {
                let whole = terms.alpha * least - terms.beta * judged.wire as i64;
                assert_eq!(binary64::in_1024ths(answer.bits), Some(whole.into()));
                assert_eq!(answer.bits == 0, whole == 0);
            }
        }
    }
}
