//! The planners that are compared, by name.

use crate::library;
use repeater_tree::LISTING_LENGTH;
use second_reference::answer::Answer;
use second_reference::listing::Listing;
use second_reference::net::{Net, NEED};
use second_reference::tree::Tree;
use second_reference::{gathered, plain, short, slow, weighted};

pub type Planner = (&'static str, fn(&[u8], &mut [u8]) -> Answer);

pub const LIBRARY: Planner = ("library", library::plan);
pub const PLAIN: Planner = ("plain", plain::plan);
/// For nets of at most `slow::MOST_SINKS` sinks.
pub const SLOW: Planner = ("slow", slow::plan);
pub const GATHERED: Planner = ("gathered", gathered::plan);

/// Of the short tree.
pub const SHORT_LIBRARY: Planner = ("library", library::plan_short);
pub const SHORT_PLAIN: Planner = ("plain", plain::plan_short);
/// For nets of at most `short::MOST_SINKS` sinks, and a few others.
pub const SHORT_SLOW: Planner = ("slow", short::plan);

/// Of the third plan.
pub const WEIGHTED_LIBRARY: Planner = ("library", library::plan_weighted);
pub const WEIGHTED_PLAIN: Planner = ("plain", plain::plan_weighted);
pub const WEIGHTED_SLOW: Planner = ("slow", weighted::plan);

/// The planner's tree, whatever the net needs; none where it is refused.
pub fn tree_of(net: &Net, by: Planner) -> Option<Tree> {
    let mut net = net.clone();
    net.need = NEED.0;
    let mut out = vec![0; LISTING_LENGTH];
    let length = by.1(&net.text(), &mut out).last as usize;
    let listing = Listing::read(&out[..length], &net);
    listing.ok().map(|listing| listing.tree)
}
