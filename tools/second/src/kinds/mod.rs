//! The kinds of case. Each draws its cases from one seed.

mod deleted;
mod deletion_chains;
mod deletion_ends;
mod deletions;
mod enumerated;
mod far;
mod further;
mod listings;
mod metals;
mod planned;
mod scaled;
mod score_ends;
mod score_zero;
mod scored;
mod scores;
mod short;
mod spoilt;
mod weight_line;
mod weighted;
mod wire_line;

use crate::random::Random;
use crate::session::Session;

pub use listings::random_listing;

pub struct Kind {
    pub name: &'static str,
    /// Runs once in so many rounds, since some are long.
    pub every: u64,
    pub run: fn(&mut Session, &mut Random),
}

const fn kind(name: &'static str, every: u64, run: fn(&mut Session, &mut Random)) -> Kind {
    Kind { name, every, run }
}

pub const ALL: &[Kind] = &[
    kind("marked", 100, planned::marked),
    kind("random", 1, planned::random),
    kind("ties", 1, planned::ties),
    kind("coincident", 1, planned::coincident),
    kind("extremes", 1, planned::extremes),
    kind("longest", 100, planned::longest),
    kind("path-like", 1, planned::path_like),
    kind("few-spots", 1, planned::few_spots),
    kind("spread-out", 1, planned::spread_out),
    kind("as-near", 1, planned::as_near),
    kind("near-root", 1, planned::near_root),
    kind("512-sinks", 10, planned::full),
    kind("near-512", 10, planned::near_full),
    kind("small", 1, planned::small),
    kind("gathered", 1, planned::gathered),
    kind("need", 1, planned::need),
    kind("outputs", 1, planned::outputs),
    kind("enumerated", 10, enumerated::legal),
    kind("parents", 40, enumerated::parents),
    kind("listings", 1, listings::random),
    kind("listings-512", 20, listings::full),
    kind("wrong-n", 2, listings::wrong_n),
    kind("rings", 1, listings::rings),
    kind("spoilt-net", 1, spoilt::net),
    kind("spoilt-listing", 1, spoilt::listing),
    kind("spoilt-both", 1, spoilt::both),
    kind("cuts", 20, spoilt::cuts),
    kind("numbers", 40, spoilt::numbers),
    kind("lengths", 10, spoilt::lengths),
    kind("pin-limit", 10, far::limit),
    kind("range-ends", 10, far::range_ends),
    kind("far-pins", 1, far::several),
    kind("far-and-fault", 5, far::faults),
    kind("far-cuts", 20, far::cuts),
    kind("far-listings", 5, far::listings),
    kind("spoilt-far", 1, far::spoilt_nets),
    kind("metals-apart", 1, metals::far_apart),
    kind("metal-ties", 1, metals::ties),
    kind("metal-nearness", 1, metals::nearness),
    kind("mirrored", 1, metals::mirrored),
    kind("metal-listings", 1, metals::listings),
    kind("wire-line", 20, wire_line::all),
    kind("scaled-marked", 100, scaled::marked),
    kind("scaled", 1, scaled::images),
    kind("scaled-down", 1, scaled::quotients),
    kind("scaled-listings", 1, scaled::listings),
    kind("short-marked", 100, short::marked),
    kind("short-random", 1, short::random),
    kind("short-ties", 1, short::ties),
    kind("short-streets", 1, short::streets),
    kind("short-few", 1, short::few),
    kind("short-large", 10, short::large),
    kind("short-longest", 300, short::longest),
    kind("short-need", 2, short::need),
    kind("short-mirrored", 2, short::mirrored),
    kind("short-outputs", 2, short::outputs),
    kind("short-spoilt", 2, short::spoilt_nets),
    kind("short-cuts", 50, short::cuts),
    kind("weighted-marked", 100, weighted::marked),
    kind("weighted-random", 1, weighted::random),
    kind("weighted-ties", 1, weighted::ties),
    kind("weighted-deep", 1, weighted::deep),
    kind("weighted-few", 2, weighted::few),
    kind("weighted-large", 10, weighted::large),
    kind("weighted-longest", 300, weighted::longest),
    kind("weighted-need", 2, weighted::need),
    kind("weighted-mirror", 2, weighted::mirrored),
    kind("weighted-outputs", 2, weighted::outputs),
    kind("weighted-spoilt", 2, weighted::spoilt_nets),
    kind("weighted-cuts", 50, weighted::cuts),
    kind("weights-ignored", 1, weighted::ignored),
    kind("weight-line", 20, weight_line::all),
    kind("score-marked", 100, scores::marked),
    kind("score-random", 1, scores::random),
    kind("score-zero", 1, score_zero::all),
    kind("score-ends", 5, score_ends::ends),
    kind("score-low", 1, score_ends::low),
    kind("score-refused", 1, score_ends::refused),
    kind("score-large", 10, scores::large),
    kind("deletion-marked", 100, deletions::marked),
    kind("deletion-random", 1, deletions::random),
    kind("deletion-few", 20, deletions::few),
    kind("deletion-orders", 2, deletion_chains::orders),
    kind("deletion-chains", 10, deletion_chains::chains),
    kind("deletion-large", 20, deletions::large),
    kind("deletion-down", 150, deletion_chains::down),
    kind("deletion-sinks", 5, deletion_ends::sinks),
    kind("deletion-outputs", 2, deletion_ends::outputs),
    kind("deletion-refused", 2, deletion_ends::refused),
];
