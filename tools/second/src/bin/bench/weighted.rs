//! The third plan: its times by weights and size of the net.

use crate::table::{Shape, Table, Times};
use crate::{cases, library_plan, planned, Case};
use repeater_tree::{plan_weighted_figures, PlanFigures, LISTING_LENGTH};
use second_reference::net::Net;
use second_reference::plain;
use second_tool::nets;
use second_tool::random::Random;
use second_tool::ranges::Ranges;
use second_tool::shapes::Make;
use second_tool::timing::compare;
use second_tool::weights::{self, WEIGHTS};
use std::hint::black_box;

/// All the same but for their weights, by which alone the sinks are joined.
const SHAPES: [Shape; 9] = [
    shape::<0>(),
    shape::<1>(),
    shape::<2>(),
    shape::<3>(),
    shape::<4>(),
    shape::<5>(),
    shape::<6>(),
    shape::<7>(),
    shape::<8>(),
];
const SIZES: [usize; 7] = [1, 2, 5, 16, 64, 200, 512];

/// By the place of the weights.
const fn shape<const HOW: usize>() -> Shape {
    (WEIGHTS[HOW].0, weighed::<HOW>)
}

fn weighed<const HOW: usize>(r: &mut Random, ranges: &Ranges, n: usize) -> Net {
    let net = nets::common(r, ranges, n);
    weights::by(r, WEIGHTS[HOW].1, net)
}

fn library_weighted(net: &[u8], out: &mut [u8]) {
    let mut figures = PlanFigures::default();
    plan_weighted_figures(black_box(net), out, &mut figures);
    assert_eq!(black_box(&figures).number, 0);
}

fn plain_weighted(net: &[u8], out: &mut [u8]) {
    let answer = plain::plan_weighted(black_box(net), out);
    assert_eq!(black_box(answer).number, 0);
}

fn time(make: Make, n: usize) -> Times {
    let mut outs = [(); 3].map(|()| vec![0; LISTING_LENGTH]);
    let [one, two, three] = &mut outs;
    let [library, plain, plan] = compare(
        &cases(make, n, planned),
        &mut [
            &mut |case: &Case| library_weighted(&case.net, one),
            &mut |case: &Case| plain_weighted(&case.net, two),
            &mut |case: &Case| library_plan(&case.net, three),
        ],
    );
    Times {
        library,
        plain,
        plainest: plain,
        other: plan,
    }
}

pub fn third_plans() {
    let table = Table::timed(&SHAPES, &SIZES, time);
    table.print(
        "plan_weighted: microseconds, library / plain = ratio",
        Times::beside_plain,
    );
    table.print(
        "plan_weighted: its time over that of plan on the same net",
        |times| format!("{:.2}", times.over_other()),
    );
    table.print_largest("plan_weighted over plain", Times::over_plain);
    table.print_largest("plan_weighted over plan", Times::over_other);
    table.print_growth();
}
