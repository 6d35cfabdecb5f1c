//! The router's score: its times by shape and size of the net.

use crate::table::{Shape, Table, Times};
use crate::{cases, library_judge, planned, Case, SIZES};
use repeater_tree::{score_figures, ScoreFigures};
use second_reference::plain;
use second_reference::terms::Terms;
use second_tool::nets;
use second_tool::shapes::Make;
use second_tool::timing::compare;
use std::hint::black_box;

/// All but the last step is judge's, and its dearest shapes are among these.
const SHAPES: [Shape; 3] = [
    ("common", nets::common),
    ("falling", nets::falling),
    ("path, rising", nets::rising),
];

/// Both measures count, and the cap leaves every slack as it is.
const TERMS: Terms = Terms {
    alpha: 700,
    beta: 300,
    cap: 1_000_000_000_000,
};

fn library_score(case: &Case) {
    let Terms { alpha, beta, cap } = black_box(TERMS);
    let mut figures = ScoreFigures::default();
    let (net, listing) = (black_box(&case.net), black_box(&case.listing));
    score_figures(net, listing, alpha, beta, cap, &mut figures);
    assert_eq!(black_box(&figures).number, 0);
}

fn plain_score(case: &Case) {
    let (net, listing) = (black_box(&case.net), black_box(&case.listing));
    let answer = plain::score(net, listing, black_box(TERMS));
    assert_eq!(black_box(answer).number, 0);
}

fn time(make: Make, n: usize) -> Times {
    let [library, plain, other] = compare(
        &cases(make, n, planned),
        &mut [&mut library_score, &mut plain_score, &mut library_judge],
    );
    Times {
        library,
        plain,
        plainest: plain,
        other,
    }
}

pub fn scored_plans() {
    let table = Table::timed(&SHAPES, &SIZES, time);
    table.print(
        "score of plans: microseconds, library / plain = ratio",
        Times::beside_plain,
    );
    table.print(
        "score of plans: its time over that of judge on the same listing",
        |times| format!("{:.2}", times.over_other()),
    );
    table.print_largest("score over plain", Times::over_plain);
    table.print_largest("score over judge", Times::over_other);
    table.print_growth();
}
