//! All three plans, judge, score and the deletion of a pin, written twice from the
//! order alone, and the first plan once more in request 3's order of work.
//!
//! `slow` does what the order says word by word: it builds and measures every
//! candidate tree, and takes the Kraft maximum from its definition.
//! `gathered` tries the edges from the smallest slack under each vertex; all
//! else it shares with `slow`.
//! `short` is the second plan, the short tree, word by word; `spanning` has the
//! trees that are no shorter.
//! `weighted` is the third plan word by word; `rivals` has the trees whose sum of
//! weight × delay is no less.
//! `score` is the router's score word by word, whose bits `binary64` puts together
//! by whole numbers alone.
//! `deletion` is a pin's deletion word by word.
//! `plain` is what a competent engineer would write, all plans, judge, score and
//! deletion; it shares nothing with these but the form of the answer.

pub mod answer;
pub mod binary64;
pub mod deletion;
pub mod gathered;
pub mod insertion;
pub mod kraft;
pub mod listing;
pub mod net;
pub mod plain;
pub mod rivals;
pub mod score;
pub mod short;
pub mod slow;
pub mod spanning;
pub mod spelling;
pub mod terms;
pub mod tree;
pub mod weighted;

#[cfg(test)]
mod deletion_tests;
#[cfg(test)]
mod marked_tests;
#[cfg(test)]
mod metal_tests;
#[cfg(test)]
mod random_tests;
#[cfg(test)]
mod range_tests;
#[cfg(test)]
mod rivals_tests;
#[cfg(test)]
mod score_tests;
#[cfg(test)]
mod short_tests;
#[cfg(test)]
mod spanning_tests;
#[cfg(test)]
mod weighted_tests;
