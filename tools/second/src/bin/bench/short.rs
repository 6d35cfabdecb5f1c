//! The short tree: its times by shape and size of the net.

use crate::table::{Shape, Table, Times};
use crate::{cases, library_plan, planned, Case};
use repeater_tree::{plan_short_figures, PlanFigures, LISTING_LENGTH};
use second_reference::answer::Answer;
use second_reference::plain;
use second_tool::shapes::Make;
use second_tool::streets::{clusters, columns, comb, grid, line, ring, stairs};
use second_tool::timing::compare_in;
use second_tool::{near, nets};
use std::hint::black_box;

/// Those whose places are of a kind beside the first plan's.
const SHAPES: [Shape; 14] = [
    ("common", nets::common),
    ("tied", nets::tied),
    ("coincident", nets::coincident),
    ("one spot", near::one_spot),
    ("path, deep", near::deep),
    ("few spots", near::few_spots),
    ("near root", near::tree_near_root),
    ("grid", grid),
    ("line", line),
    ("comb", comb),
    ("columns", columns),
    ("clusters", clusters),
    ("ring", ring),
    ("stairs", stairs),
];
const SIZES: [usize; 6] = [1, 5, 12, 50, 200, 512];

/// Nets of one shape and size, and rounds on each: few where a call is long.
fn measure(n: usize) -> (usize, usize) {
    match n {
        ..=50 => (12, 25),
        51..=200 => (6, 9),
        _ => (3, 3),
    }
}

fn library_short(net: &[u8], out: &mut [u8]) {
    let mut figures = PlanFigures::default();
    plan_short_figures(black_box(net), out, &mut figures);
    assert_eq!(black_box(&figures).number, 0);
}

fn plain_short(plan: fn(&[u8], &mut [u8]) -> Answer, net: &[u8], out: &mut [u8]) {
    let answer = plan(black_box(net), out);
    assert_eq!(black_box(answer).number, 0);
}

fn time(make: Make, n: usize) -> Times {
    let (nets, rounds) = measure(n);
    let mut cases = cases(make, n, planned);
    cases.truncate(nets);
    let mut outs = [(); 4].map(|()| vec![0; LISTING_LENGTH]);
    let [one, two, three, four] = &mut outs;
    let [library, plain, plainest, plan] = compare_in(
        rounds,
        &cases,
        &mut [
            &mut |case: &Case| library_short(&case.net, one),
            &mut |case: &Case| plain_short(plain::plan_short, &case.net, two),
            &mut |case: &Case| plain_short(plain::plan_short_trying_all, &case.net, three),
            &mut |case: &Case| library_plan(&case.net, four),
        ],
    );
    Times {
        library,
        plain,
        plainest,
        other: plan,
    }
}

pub fn short_trees() {
    let table = Table::timed(&SHAPES, &SIZES, time);
    table.print(
        "plan_short: microseconds, library / plain = ratio",
        Times::beside_plain,
    );
    table.print(
        "plan_short: microseconds, library / plain with every edge tried anew = ratio",
        Times::beside_plainest,
    );
    table.print(
        "plan_short: its time over that of plan on the same net",
        |times| format!("{:.2}", times.over_other()),
    );
    table.print_largest("plan_short over plain", Times::over_plain);
    table.print_largest("plan_short over plan", Times::over_other);
    table.print_growth();
}
