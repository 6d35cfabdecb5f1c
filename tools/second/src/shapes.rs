//! Every shape of net that is drawn, by name, and the nets that are given.

use crate::near;
use crate::nets;
use crate::random::Random;
use crate::ranges::Ranges;
use second_reference::net::Net;

pub type Make = fn(&mut Random, &Ranges, usize) -> Net;

pub const SHAPES: [(&str, Make); 16] = [
    ("common", nets::common),
    ("tied", nets::tied),
    ("coincident", nets::coincident),
    ("cornered", nets::cornered),
    ("extreme", nets::extreme),
    ("rising-path", nets::rising),
    ("deep-path", near::deep),
    ("spare", nets::spare),
    ("falling", nets::falling),
    ("few-spots", near::few_spots),
    ("one-spot", near::one_spot),
    ("spread-out", near::spread_out),
    ("as-near", near::as_near),
    ("near-root", near::near_root),
    ("tree-near-root", near::tree_near_root),
    ("path-near-root", near::path_near_root),
];

/// Small nets of request 4: net A's pins, later due, with the factors in either
/// order, and pins of which another is nearest if nearness is weighed.
pub const METALS: [(&str, &[u8]); 3] = [
    (
        "two-metals-3",
        b"root=0,0\nbranch=20\nwire=2,6\nneed=30\nsinks=3\nsink=10,0,100,1\nsink=4,6,110,1\nsink=10,10,150,1\n",
    ),
    (
        "two-metals-exchanged-3",
        b"root=0,0\nbranch=20\nwire=6,2\nneed=20\nsinks=3\nsink=10,0,100,1\nsink=4,6,110,1\nsink=10,10,150,1\n",
    ),
    (
        "plain-nearness-3",
        b"root=0,0\nbranch=20\nwire=2,6\nneed=-40\nsinks=3\nsink=10,4,44,1\nsink=4,0,8,1\nsink=4,4,32,1\n",
    ),
];

/// The marked nets of 01 and of requests 1 and 2.
pub const MARKED: [(&str, &[u8]); 7] = [
    (
        "marked-a-3",
        b"root=0,0\nbranch=20\nwire=2,2\nneed=0\nsinks=3\nsink=10,0,100,1\nsink=4,6,60,1\nsink=10,10,70,1\n",
    ),
    (
        "marked-at-root-3",
        b"root=0,0\nbranch=20\nwire=2,2\nneed=-40\nsinks=3\nsink=0,0,0,1\nsink=0,0,0,1\nsink=0,0,0,1\n",
    ),
    (
        "marked-alone-1",
        b"root=0,0\nbranch=20\nwire=2,2\nneed=-4\nsinks=1\nsink=3,4,10,1\n",
    ),
    (
        "marked-equal-2",
        b"root=0,0\nbranch=3\nwire=1,1\nneed=2\nsinks=2\nsink=0,0,5,1\nsink=1,0,6,1\n",
    ),
    (
        "marked-branch-point-nearest-3",
        b"root=0,0\nbranch=20\nwire=2,2\nneed=-40\nsinks=3\nsink=10,0,20,1\nsink=10,0,20,1\nsink=1,0,2,1\n",
    ),
    (
        "marked-nearer-sink-3",
        b"root=0,0\nbranch=20\nwire=2,2\nneed=-40\nsinks=3\nsink=10,0,20,1\nsink=0,10,20,1\nsink=1,10,22,1\n",
    ),
    (
        "marked-range-end-1",
        b"root=60000,0\nbranch=20\nwire=2,2\nneed=-80000\nsinks=1\nsink=100000,0,0,1\n",
    ),
];

/// Request 5: the end of the range in nanometres.
pub const RANGE_END: [(&str, &[u8]); 1] = [(
    "marked-range-end-nm-1",
    b"root=60000000,0\nbranch=20\nwire=2,2\nneed=-80000000\nsinks=1\nsink=100000000,0,0,1\n",
)];

/// Small nets of request 7, worked out by hand in the reference's tests: a path,
/// a sink that ties with a joined vertex, equal weights, one sink, and net A with
/// a heavy sink.
pub const WEIGHTED: [(&str, &[u8]); 5] = [
    (
        "weighted-path-5",
        b"root=0,0\nbranch=20\nwire=2,2\nneed=-94\nsinks=5\nsink=3,4,0,1\nsink=3,4,0,1\nsink=3,4,0,2\nsink=3,4,0,3\nsink=3,4,0,5\n",
    ),
    (
        "weighted-sink-first-4",
        b"root=0,0\nbranch=20\nwire=2,2\nneed=-54\nsinks=4\nsink=3,4,0,3\nsink=3,4,0,1\nsink=3,4,0,2\nsink=3,4,0,3\n",
    ),
    (
        "weighted-equal-4",
        b"root=0,0\nbranch=20\nwire=2,2\nneed=-54\nsinks=4\nsink=3,4,0,7\nsink=3,4,0,7\nsink=3,4,0,7\nsink=3,4,0,7\n",
    ),
    (
        "weighted-alone-1",
        b"root=0,0\nbranch=20\nwire=2,2\nneed=-4\nsinks=1\nsink=3,4,10,1000\n",
    ),
    (
        "weighted-heavy-3",
        b"root=0,0\nbranch=20\nwire=2,2\nneed=0\nsinks=3\nsink=10,0,100,3\nsink=4,6,60,1\nsink=10,10,70,1\n",
    ),
];

/// Small nets of request 6, worked out by hand in the reference's tests: sinks
/// that tie, for the first place too; lower ends that tie; an edge above a branch
/// point that is split; a branch point by its edge's upper end, and a detour.
pub const SHORT: [(&str, &[u8]); 5] = [
    (
        "short-tied-sinks-3",
        b"root=0,0\nbranch=20\nwire=2,2\nneed=-80\nsinks=3\nsink=1,3,0,1\nsink=2,-3,0,1\nsink=3,0,0,1\n",
    ),
    (
        "short-tied-first-3",
        b"root=0,0\nbranch=20\nwire=2,2\nneed=-80\nsinks=3\nsink=5,5,0,1\nsink=-5,0,0,1\nsink=5,0,0,1\n",
    ),
    (
        "short-tied-ends-3",
        b"root=0,0\nbranch=20\nwire=2,2\nneed=-80\nsinks=3\nsink=2,2,0,1\nsink=2,0,0,1\nsink=2,-3,0,1\n",
    ),
    (
        "short-above-branch-point-3",
        b"root=0,0\nbranch=20\nwire=2,2\nneed=-80\nsinks=3\nsink=10,1,0,1\nsink=10,-1,0,1\nsink=5,7,0,1\n",
    ),
    (
        "short-detour-3",
        b"root=0,0\nbranch=1\nwire=1,5\nneed=0\nsinks=3\nsink=4,0,100,1\nsink=4,6,100,1\nsink=3,7,100,1\n",
    ),
];
