//! The two plans of the same nets: what the short tree saves in wire and costs
//! in slack.

use repeater_tree::LISTING_LENGTH;
use second_reference::answer::Answer;
use second_reference::net::{Factors, Net};
use second_reference::spanning;
use second_tool::planners::{Planner, LIBRARY, SHORT_LIBRARY};
use second_tool::random::Random;
use second_tool::ranges::NANOMETRES;
use second_tool::timing::median;
use second_tool::{nets, pins};

const SIZES: [usize; 5] = [5, 12, 50, 200, 512];

/// Different nets of one size.
fn how_many(n: usize) -> usize {
    match n {
        ..=50 => 400,
        51..=200 => 100,
        _ => 20,
    }
}

/// Document 000's technology: a branch point costs 20 ps, a millimetre 220 ps.
const BRANCH: i64 = 20_000_000;
const WIRE: i64 = 220;
/// Pins up to 2 mm from the root.
const REACH: i64 = 2_000_000;

/// All pins are due at the same time.
fn of_one_time(r: &mut Random, n: usize) -> Net {
    let mut net = nets::common(r, &NANOMETRES, n);
    net.branch = BRANCH;
    net.wire = Factors::equal(WIRE);
    for sink in &mut net.sinks {
        sink.at = pins::about(r, &NANOMETRES, net.root, REACH);
        sink.arrival = 0;
    }
    net
}

/// Of one net, the short tree beside the first plan.
struct Compared {
    wire: f64,
    /// Over the least spanning tree's length.
    spanning: f64,
    /// Slack lost, in costs of a branch point.
    branches: f64,
    /// In percent of the delay of the slowest pin's straight wire.
    straight: f64,
}

fn planned(by: Planner, net: &[u8]) -> Answer {
    let answer = by.1(net, &mut vec![0; LISTING_LENGTH]);
    assert_eq!(answer.number, 0);
    answer
}

fn ratio(one: f64, two: f64) -> f64 {
    if one == two {
        1.0
    } else {
        one / two
    }
}

fn compared(net: &Net) -> Compared {
    let text = net.text();
    let (first, short) = (planned(LIBRARY, &text), planned(SHORT_LIBRARY, &text));
    let least = spanning::least(&spanning::points(net));
    let lost = (first.slack - short.slack) as f64;
    let delays = net.sinks.iter().map(|s| net.wire.delay(net.root, s.at));
    let slowest = delays.max().unwrap_or(0) as f64;
    Compared {
        wire: ratio(short.wire as f64, first.wire as f64),
        spanning: ratio(short.wire as f64, least as f64),
        branches: lost / net.branch as f64,
        straight: 100.0 * lost / slowest.max(1.0),
    }
}

fn mean(all: &[Compared], of: fn(&Compared) -> f64) -> f64 {
    all.iter().map(of).sum::<f64>() / all.len() as f64
}

fn middle(all: &[Compared], of: fn(&Compared) -> f64) -> f64 {
    median(all.iter().map(of).collect())
}

fn print_table(title: &str, make: fn(&mut Random, usize) -> Net) {
    println!("\n{title}; wires as means, slacks as medians\n");
    println!(
        "| Sinks | Nets | Wire, short / first | Shorter than the first | Wire, short / least \
         spanning tree | Slack lost, in c | Slack lost, in % of the slowest straight wire | No \
         slack lost |"
    );
    println!("|---|---|---|---|---|---|---|---|");
    for n in SIZES {
        let mut r = Random::new(n as u64);
        let all: Vec<Compared> = (0..how_many(n))
            .map(|_| compared(&make(&mut r, n)))
            .collect();
        let share = |holds: fn(&Compared) -> bool| {
            100 * all.iter().filter(|c| holds(c)).count() / all.len()
        };
        println!(
            "| {n} | {} | {:.3} | {}% | {:.3} | {:.1} | {:.0} | {}% |",
            all.len(),
            mean(&all, |c| c.wire),
            share(|c| c.wire < 1.0),
            mean(&all, |c| c.spanning),
            middle(&all, |c| c.branches),
            middle(&all, |c| c.straight),
            share(|c| c.branches == 0.0)
        );
    }
}

pub fn both_plans() {
    print_table(
        "the short tree beside the first plan, common nets",
        |r, n| nets::common(r, &NANOMETRES, n),
    );
    print_table(
        "the same, c = 20 ps, 220 ps/mm, pins within 2 mm, all due at the same time",
        of_one_time,
    );
}
