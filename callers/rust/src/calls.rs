//! The calls with every figure as the library gives it.

/// All figures of a call that plans.
#[derive(Clone, Copy, Debug, Default, PartialEq, Eq)]
pub struct PlanFigures {
    pub number: u8,
    pub text: u8,
    pub line: usize,
    pub slack: i64,
    pub wire: u64,
    pub bytes: usize,
}

/// All figures of a judge call.
#[derive(Clone, Copy, Debug, Default, PartialEq, Eq)]
pub struct JudgeFigures {
    pub number: u8,
    pub text: u8,
    pub line: usize,
    pub slack: i64,
    pub wire: u64,
    pub best: i64,
}

/// All figures of a score call.
#[derive(Clone, Copy, Debug, Default, PartialEq)]
pub struct ScoreFigures {
    pub number: u8,
    pub text: u8,
    pub line: usize,
    pub score: f64,
}

/// All figures of a call that deletes a pin.
#[derive(Clone, Copy, Debug, Default, PartialEq, Eq)]
pub struct DeletionFigures {
    pub number: u8,
    pub text: u8,
    pub line: usize,
    pub net_bytes: usize,
    pub listing_bytes: usize,
}

extern "C" {
    fn repeater_tree_plan(
        net: *const u8,
        net_length: usize,
        out: *mut u8,
        out_length: usize,
        text: *mut u8,
        line: *mut usize,
        slack: *mut i64,
        wire: *mut u64,
        bytes: *mut usize,
    ) -> u8;

    fn repeater_tree_plan_short(
        net: *const u8,
        net_length: usize,
        out: *mut u8,
        out_length: usize,
        text: *mut u8,
        line: *mut usize,
        slack: *mut i64,
        wire: *mut u64,
        bytes: *mut usize,
    ) -> u8;

    fn repeater_tree_plan_weighted(
        net: *const u8,
        net_length: usize,
        out: *mut u8,
        out_length: usize,
        text: *mut u8,
        line: *mut usize,
        slack: *mut i64,
        wire: *mut u64,
        bytes: *mut usize,
    ) -> u8;

    fn repeater_tree_judge(
        net: *const u8,
        net_length: usize,
        listing: *const u8,
        listing_length: usize,
        text: *mut u8,
        line: *mut usize,
        slack: *mut i64,
        wire: *mut u64,
        best: *mut i64,
    ) -> u8;

    fn repeater_tree_score(
        net: *const u8,
        net_length: usize,
        listing: *const u8,
        listing_length: usize,
        alpha_1024ths: i64,
        beta_1024ths: i64,
        cap: i64,
        text: *mut u8,
        line: *mut usize,
        score: *mut f64,
    ) -> u8;

    fn repeater_tree_delete_pin(
        net: *const u8,
        net_length: usize,
        listing: *const u8,
        listing_length: usize,
        sink: usize,
        net_out: *mut u8,
        net_out_length: usize,
        listing_out: *mut u8,
        listing_out_length: usize,
        text: *mut u8,
        line: *mut usize,
        net_bytes: *mut usize,
        listing_bytes: *mut usize,
    ) -> u8;
}

/// A call that plans.
type Planner = unsafe extern "C" fn(
    *const u8,
    usize,
    *mut u8,
    usize,
    *mut u8,
    *mut usize,
    *mut i64,
    *mut u64,
    *mut usize,
) -> u8;

fn plan_by(planner: Planner, net: &[u8], out: &mut [u8], f: &mut PlanFigures) {
    // SAFETY: slices are non-null and valid for their lengths, also when empty;
    // the exclusive borrows keep outputs and figures apart from all else.
    f.number = unsafe {
        planner(
            net.as_ptr(),
            net.len(),
            out.as_mut_ptr(),
            out.len(),
            &mut f.text,
            &mut f.line,
            &mut f.slack,
            &mut f.wire,
            &mut f.bytes,
        )
    };
}

/// Plans, and overwrites every figure.
pub fn plan_figures(net: &[u8], out: &mut [u8], f: &mut PlanFigures) {
    plan_by(repeater_tree_plan, net, out, f);
}

/// Plans a short tree, and overwrites every figure.
pub fn plan_short_figures(net: &[u8], out: &mut [u8], f: &mut PlanFigures) {
    plan_by(repeater_tree_plan_short, net, out, f);
}

/// Plans a tree by its sinks' weights, and overwrites every figure.
pub fn plan_weighted_figures(net: &[u8], out: &mut [u8], f: &mut PlanFigures) {
    plan_by(repeater_tree_plan_weighted, net, out, f);
}

/// Judges, and overwrites every figure.
pub fn judge_figures(net: &[u8], listing: &[u8], f: &mut JudgeFigures) {
    // SAFETY: as above; the two texts are only read.
    f.number = unsafe {
        repeater_tree_judge(
            net.as_ptr(),
            net.len(),
            listing.as_ptr(),
            listing.len(),
            &mut f.text,
            &mut f.line,
            &mut f.slack,
            &mut f.wire,
            &mut f.best,
        )
    };
}

/// Scores, and overwrites every figure.
pub fn score_figures(
    net: &[u8],
    listing: &[u8],
    alpha_1024ths: i64,
    beta_1024ths: i64,
    cap: i64,
    f: &mut ScoreFigures,
) {
    // SAFETY: as above; the two texts are only read.
    f.number = unsafe {
        repeater_tree_score(
            net.as_ptr(),
            net.len(),
            listing.as_ptr(),
            listing.len(),
            alpha_1024ths,
            beta_1024ths,
            cap,
            &mut f.text,
            &mut f.line,
            &mut f.score,
        )
    };
}

/// Deletes a pin, and overwrites every figure.
pub fn delete_pin_figures(
    net: &[u8],
    listing: &[u8],
    sink: usize,
    net_out: &mut [u8],
    listing_out: &mut [u8],
    f: &mut DeletionFigures,
) {
    // SAFETY: as above; the two texts are only read.
    f.number = unsafe {
        repeater_tree_delete_pin(
            net.as_ptr(),
            net.len(),
            listing.as_ptr(),
            listing.len(),
            sink,
            net_out.as_mut_ptr(),
            net_out.len(),
            listing_out.as_mut_ptr(),
            listing_out.len(),
            &mut f.text,
            &mut f.line,
            &mut f.net_bytes,
            &mut f.listing_bytes,
        )
    };
}
