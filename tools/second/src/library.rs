//! The library's calls in the form of the reference's answers.

use repeater_tree::{delete_pin_figures, judge_figures, score_figures};
use repeater_tree::{plan_figures, plan_short_figures, plan_weighted_figures};
use repeater_tree::{DeletionFigures, JudgeFigures, PlanFigures, ScoreFigures};
use second_reference::answer::{Answer, Deletion, Score};
use second_reference::terms::Terms;

/// The first plan.
pub fn plan(net: &[u8], out: &mut [u8]) -> Answer {
    planned(plan_figures, net, out)
}

/// The short tree.
pub fn plan_short(net: &[u8], out: &mut [u8]) -> Answer {
    planned(plan_short_figures, net, out)
}

/// The third plan.
pub fn plan_weighted(net: &[u8], out: &mut [u8]) -> Answer {
    planned(plan_weighted_figures, net, out)
}

/// The figures are preset, so that one which the library leaves unwritten
/// shows.
fn planned(call: fn(&[u8], &mut [u8], &mut PlanFigures), net: &[u8], out: &mut [u8]) -> Answer {
    let mut f = PlanFigures {
        number: 99,
        text: 99,
        line: 99,
        slack: -99,
        wire: 99,
        bytes: 99_999,
    };
    call(net, out, &mut f);
    Answer {
        number: f.number,
        text: f.text,
        line: f.line,
        slack: f.slack,
        wire: f.wire,
        last: f.bytes as i64,
    }
}

pub fn judge(net: &[u8], listing: &[u8]) -> Answer {
    let mut f = JudgeFigures {
        number: 99,
        text: 99,
        line: 99,
        slack: -99,
        wire: 99,
        best: -99,
    };
    judge_figures(net, listing, &mut f);
    Answer {
        number: f.number,
        text: f.text,
        line: f.line,
        slack: f.slack,
        wire: f.wire,
        last: f.best,
    }
}

/// The router's score.
pub fn score(net: &[u8], listing: &[u8], terms: Terms) -> Score {
    let mut f = ScoreFigures {
        number: 99,
        text: 99,
        line: 99,
        score: -99.0,
    };
    let Terms { alpha, beta, cap } = terms;
    score_figures(net, listing, alpha, beta, cap, &mut f);
    Score {
        number: f.number,
        text: f.text,
        line: f.line,
        bits: f.score.to_bits(),
    }
}

/// The deletion of a pin.
pub fn delete_pin(
    net: &[u8],
    listing: &[u8],
    sink: usize,
    net_out: &mut [u8],
    listing_out: &mut [u8],
) -> Deletion {
    let mut f = DeletionFigures {
        number: 99,
        text: 99,
        line: 99,
        net_bytes: 99_999,
        listing_bytes: 99_999,
    };
    delete_pin_figures(net, listing, sink, net_out, listing_out, &mut f);
    Deletion {
        number: f.number,
        text: f.text,
        line: f.line,
        net_bytes: f.net_bytes,
        listing_bytes: f.listing_bytes,
    }
}
