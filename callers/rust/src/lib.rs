//! Safe calls of the repeater tree planner.
//!
//! Positions and lengths are in nanometres, times in attoseconds;
//! `docs/FORMAT.md` has the two texts. The net's line `wire=h,v` gives what a
//! nanometre costs in each metal direction: an edge delays by
//! h × |dx| + v × |dy|. Wire, nearness and the pin limit are plain nanometres.
//! A sink's line `sink=X,Y,a,w` ends with its switching weight, which
//! [`plan_weighted`] alone goes by.
//!
//! ```
//! // 3 across at 2 and 4 upward at 5: 26 of the 32 attoseconds.
//! let net = b"root=0,0\nbranch=20\nwire=2,5\nneed=0\nsinks=1\nsink=3,4,32,1\n";
//! let mut out = [0; repeater_tree::LISTING_LENGTH];
//! let plan = repeater_tree::plan(net, &mut out).unwrap();
//! assert_eq!((plan.slack, plan.wire), (6, 7));
//!
//! let measures = repeater_tree::judge(net, &out[..plan.bytes]).unwrap();
//! assert_eq!(measures.best, 6);
//! ```

mod calls;
mod refusal;

pub use calls::{
    delete_pin_figures, judge_figures, plan_figures, plan_short_figures, plan_weighted_figures,
    score_figures, DeletionFigures, JudgeFigures, PlanFigures, ScoreFigures,
};
pub use refusal::Refusal;

/// The longest net text that is read, in bytes; enough for every net that
/// [`delete_pin`] leaves.
pub const NET_LENGTH: usize = 32_768;
/// The longest listing that is read, in bytes; enough for every plan of any
/// kind, and for every listing that [`delete_pin`] leaves.
pub const LISTING_LENGTH: usize = 32_768;
/// The farthest that a sink may stand from the root, |dx| + |dy|, in
/// nanometres. A net with a farther one is refused by number 13, on the
/// sink's line: it belongs to the global planner.
pub const PIN_LIMIT: u64 = 40_000_000;
/// The largest weight of a sink; the least is 1.
pub const WEIGHT_LIMIT: u64 = 1_000;
/// A score's alpha and beta are given in parts, so many to 1; each is 0 to 1.
pub const PARTS: i64 = 1_024;
/// The largest cap of a score, in attoseconds; the least is 0.
pub const CAP_LIMIT: i64 = 1_000_000_000_000;
/// A tree is too late for a score where its worst slack is below minus this, in
/// attoseconds.
pub const LATE_LIMIT: i64 = 1_000_000_000_000;
/// No call takes more of its thread's stack, in bytes. The caller's own frames,
/// and what the system keeps on a thread's stack, come on top.
pub const STACK: usize = 81_920;

/// A plan's figures. Its listing is the output's first `bytes` bytes.
#[derive(Clone, Copy, Debug, PartialEq, Eq)]
pub struct Plan {
    /// Worst slack, in attoseconds. Of [`plan`] the largest of any legal tree
    /// over the net, -1,000,409,000,000,000 to 1,000,000,000,000,000; of
    /// [`plan_short`] that of the short tree, -1,205,311,000,000,000 to
    /// 1,000,000,000,000,000; of [`plan_weighted`] that of its tree,
    /// -1,000,426,000,000,000 to 1,000,000,000,000,000.
    pub slack: i64,
    /// Wire, in nanometres, 0 to 20,480,000,000.
    pub wire: u64,
    /// Length of the listing, at most [`LISTING_LENGTH`].
    pub bytes: usize,
}

/// A judged listing's figures.
#[derive(Clone, Copy, Debug, PartialEq, Eq)]
pub struct Measures {
    /// Worst slack of the listed tree, in attoseconds, -3,048,511,000,000,000
    /// to 1,000,000,000,000,000.
    pub slack: i64,
    /// Wire of the listed tree, in nanometres, 0 to 409,200,000,000.
    pub wire: u64,
    /// The largest worst slack of any legal tree over the net (its Kraft
    /// maximum), in attoseconds, -1,000,409,000,000,000 to
    /// 1,000,000,000,000,000.
    pub best: i64,
}

/// What a deletion leaves, at the front of its two outputs.
#[derive(Clone, Copy, Debug, PartialEq, Eq)]
pub struct Deletion {
    /// Length of the shorter net, at most [`NET_LENGTH`].
    pub net_bytes: usize,
    /// Length of the shorter listing, at most [`LISTING_LENGTH`].
    pub listing_bytes: usize,
}

/// Plans the net and writes the listing to the front of `out`; the bytes
/// beyond it, and all of them at a refusal, keep their values. Of the edges
/// that keep the worst slack largest a sink splits the one whose lower end is
/// nearest to it (branch points count at the root's position), then the one
/// whose lower end has the lowest number.
///
/// ```
/// let refusal = repeater_tree::plan(b"", &mut []).unwrap_err();
/// assert_eq!((refusal.number, refusal.text, refusal.line), (2, 1, 1));
/// ```
pub fn plan(net: &[u8], out: &mut [u8]) -> Result<Plan, Refusal> {
    let mut f = PlanFigures::default();
    plan_figures(net, out, &mut f);
    planned(f)
}

/// Plans a short tree for the net and writes the listing to the front of `out`,
/// as [`plan`] does: its wire is at most that of every spanning tree of straight
/// wires on the root and the sinks. The net's need is not looked at, so refusal
/// 5 is never given, and the worst slack may be less than the best.
///
/// ```
/// // The wire to the second pin goes on from the first: 9 and 5.
/// let net = b"root=0,0\nbranch=20\nwire=1,1\nneed=0\nsinks=2\nsink=9,0,40,1\nsink=9,5,40,1\n";
/// let mut out = [0; repeater_tree::LISTING_LENGTH];
/// let short = repeater_tree::plan_short(net, &mut out).unwrap();
/// assert_eq!((short.slack, short.wire), (6, 14));
/// assert_eq!(repeater_tree::judge(net, &out[..short.bytes]).unwrap().wire, 14);
/// ```
pub fn plan_short(net: &[u8], out: &mut [u8]) -> Result<Plan, Refusal> {
    let mut f = PlanFigures::default();
    plan_short_figures(net, out, &mut f);
    planned(f)
}

/// Plans a tree for the net by its sinks' weights and writes the listing to the
/// front of `out`, as [`plan`] does. The two vertices of least total weight are
/// joined until one is left, ties going to the lowest numbers; then branch points
/// settle. No legal tree over the net has a lower sum of weight × delay, a sink's
/// delay being its required arrival minus its slack. The net's need is not looked
/// at, so refusal 5 is never given, and the worst slack may be less than the best.
/// The other calls read the weights and do not look at them.
///
/// ```
/// // The first pin switches most, so it is joined last: one branch point above
/// // it, two above the others.
/// let net = b"root=0,0\nbranch=20\nwire=1,1\nneed=0\nsinks=3\n\
///     sink=9,0,40,5\nsink=9,5,70,1\nsink=9,9,70,1\n";
/// let mut out = [0; repeater_tree::LISTING_LENGTH];
/// let weighted = repeater_tree::plan_weighted(net, &mut out).unwrap();
/// assert_eq!((weighted.slack, weighted.wire), (11, 18));
/// assert!(out.starts_with(b"slack=11\nwire=18\nsinks=3\nleaf=1,5\nleaf=2,4\nleaf=3,4\n"));
/// ```
pub fn plan_weighted(net: &[u8], out: &mut [u8]) -> Result<Plan, Refusal> {
    let mut f = PlanFigures::default();
    plan_weighted_figures(net, out, &mut f);
    planned(f)
}

fn planned(f: PlanFigures) -> Result<Plan, Refusal> {
    Refusal::check(f.number, f.text, f.line)?;
    Ok(Plan {
        slack: f.slack,
        wire: f.wire,
        bytes: f.bytes,
    })
}

/// Measures the listed tree over its net, if the listing is legal and what it
/// states is true.
pub fn judge(net: &[u8], listing: &[u8]) -> Result<Measures, Refusal> {
    let mut f = JudgeFigures::default();
    judge_figures(net, listing, &mut f);
    Refusal::check(f.number, f.text, f.line)?;
    Ok(Measures {
        slack: f.slack,
        wire: f.wire,
        best: f.best,
    })
}

/// Scores the listed tree over its net, as the router ranks trees: alpha ×
/// min(worst slack, cap) - beta × wire, with slack in attoseconds and wire in
/// nanometres; the larger the better. Alpha and beta are given in 1,024ths, 0 to
/// [`PARTS`], and the cap is 0 to [`CAP_LIMIT`]. They may have any value: another
/// than these is refused by number 14, and so is a tree whose worst slack is
/// below minus [`LATE_LIMIT`], also where alpha is 0. [`judge`]'s refusals go before.
///
/// The score is -1,409,200,000,000 to 1,000,000,000,000 and exact: 1,024 times it
/// is the whole number `alpha_1024ths` × min(worst slack, cap) -
/// `beta_1024ths` × wire. So scores compare as those numbers do. A score of zero
/// is plus zero, and none is an infinity or a NaN.
///
/// ```
/// // 6 attoseconds to spare, of which 5 count, and 7 nanometres of wire.
/// let net = b"root=0,0\nbranch=20\nwire=2,5\nneed=0\nsinks=1\nsink=3,4,32,1\n";
/// let listing = b"slack=6\nwire=7\nsinks=1\nleaf=1,0\n";
/// // Alpha is 1/2 and beta 1/1,024.
/// let score = repeater_tree::score(net, listing, 512, 1, 5).unwrap();
/// assert_eq!(score, 2.5 - 7.0 / 1024.0);
///
/// let refusal = repeater_tree::score(net, listing, 1025, 1, 5).unwrap_err();
/// assert_eq!((refusal.number, refusal.text, refusal.line), (14, 0, 0));
/// ```
pub fn score(
    net: &[u8],
    listing: &[u8],
    alpha_1024ths: i64,
    beta_1024ths: i64,
    cap: i64,
) -> Result<f64, Refusal> {
    let mut f = ScoreFigures::default();
    score_figures(net, listing, alpha_1024ths, beta_1024ths, cap, &mut f);
    Refusal::check(f.number, f.text, f.line)?;
    Ok(f.score)
}

/// Deletes a sink from a net and from its listed tree, and writes the shorter net
/// to the front of `net_out` and the shorter listing to the front of
/// `listing_out`; the bytes beyond them, and all of both outputs at a refusal,
/// keep their values. The tree is kept: the branch point on which the sink hung
/// goes too, its other child takes its place, and no point moves. The numbers
/// close up in their old order: the sinks above the deleted one fall by 1, the
/// branch points below the one that goes by 1, those above it by 2.
///
/// The shorter net is the net with one less on its `sinks=` line and without the
/// deleted sink's line. The shorter listing states its own worst slack and wire,
/// and [`judge`] accepts it for the shorter net. No sink that remains loses slack,
/// and the wire does not grow.
///
/// The sink may have any value: another than 1 to n is refused by number 15, and
/// the only sink of a net by number 16. [`judge`]'s refusals go before; 6 comes
/// last, where either output is shorter than its text. The net's need is not
/// looked at, so refusal 5 is never given.
///
/// ```
/// let net = b"root=0,0\nbranch=20\nwire=1,1\nneed=0\nsinks=2\nsink=9,0,40,1\nsink=9,5,40,1\n";
/// let listing = b"slack=6\nwire=14\nsinks=2\nleaf=1,3\nleaf=2,3\nnode=3,0,9,0\n";
/// let mut net_out = [0; repeater_tree::NET_LENGTH];
/// let mut out = [0; repeater_tree::LISTING_LENGTH];
/// let left = repeater_tree::delete_pin(net, listing, 1, &mut net_out, &mut out).unwrap();
/// let (net_left, left) = (&net_out[..left.net_bytes], &out[..left.listing_bytes]);
/// // The second pin is the first now, and hangs on the root: 26 of its 40
/// // attoseconds are left.
/// assert_eq!(net_left, b"root=0,0\nbranch=20\nwire=1,1\nneed=0\nsinks=1\nsink=9,5,40,1\n");
/// assert_eq!(left, b"slack=26\nwire=14\nsinks=1\nleaf=1,0\n");
/// assert_eq!(repeater_tree::judge(net_left, left).unwrap().slack, 26);
///
/// let refusal = repeater_tree::delete_pin(net, listing, 3, &mut [], &mut []).unwrap_err();
/// assert_eq!((refusal.number, refusal.text, refusal.line), (15, 0, 0));
/// ```
pub fn delete_pin(
    net: &[u8],
    listing: &[u8],
    sink: usize,
    net_out: &mut [u8],
    listing_out: &mut [u8],
) -> Result<Deletion, Refusal> {
    let mut f = DeletionFigures::default();
    delete_pin_figures(net, listing, sink, net_out, listing_out, &mut f);
    Refusal::check(f.number, f.text, f.line)?;
    Ok(Deletion {
        net_bytes: f.net_bytes,
        listing_bytes: f.listing_bytes,
    })
}
