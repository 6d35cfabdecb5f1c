//! Comparison of the library with the references, kind of case by kind, and
//! with the stored listings.

pub mod damage;
pub mod decided;
pub mod deleted;
pub mod deletions;
pub mod due;
pub mod kinds;
pub mod library;
pub mod metals;
pub mod near;
pub mod nets;
pub mod pins;
pub mod planners;
pub mod printed;
pub mod programs;
pub mod random;
pub mod ranges;
pub mod remaining;
pub mod scaled;
pub mod scores;
pub mod session;
pub mod shapes;
pub mod short;
pub mod signatures;
pub mod stored;
pub mod streets;
pub mod terms;
pub mod timing;
pub mod trees;
pub mod weighted;
pub mod weights;
