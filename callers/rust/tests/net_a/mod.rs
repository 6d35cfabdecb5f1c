//! Net A, two of its trees, and a text for each of judge's refusals.

use repeater_tree::{LISTING_LENGTH, NET_LENGTH};

pub const NET: &str = "root=0,0\nbranch=20\nwire=2,2\nneed=0\nsinks=3\n\
sink=10,0,100,1\nsink=4,6,60,1\nsink=10,10,70,1\n";

/// Its first plan.
pub const LISTING: &str = "slack=0\nwire=32\nsinks=3\nleaf=1,5\nleaf=2,5\nleaf=3,4\n\
node=4,0,4,0\nnode=5,4,4,0\n";

/// Its short tree.
pub const SHORT: &str = "slack=-10\nwire=26\nsinks=3\nleaf=1,5\nleaf=2,4\nleaf=3,5\n\
node=4,0,4,0\nnode=5,4,10,0\n";

/// A net and a listing for each of judge's refusals.
pub fn refused() -> Vec<(u8, String, String)> {
    let net = |old: &str, new: &str| (NET.replace(old, new), LISTING.to_string());
    let listing = |old: &str, new: &str| (NET.to_string(), LISTING.replace(old, new));
    let ring = "leaf=1,4\nleaf=2,5\nleaf=3,0\nnode=4,5,4,0\nnode=5,4,4,0\n";
    let one = "slack=0\nwire=0\nsinks=1\nleaf=1,0\n";
    let all = [
        (1, net(NET, &"r".repeat(NET_LENGTH + 1))),
        (1, listing(LISTING, &"s".repeat(LISTING_LENGTH + 1))),
        (2, net(NET, "")),
        (2, listing(LISTING, "")),
        (3, net("wire=2,2", "wire=2,0")),
        (3, listing("wire=32", "wire=-1")),
        (4, net("70,1\n", "70,1\n\n")),
        (4, listing("node=5,4,4,0\n", "node=5,4,4,0\n\n")),
        (7, listing(LISTING, one)),
        (8, listing("leaf=3,4", "leaf=3,1")),
        (9, listing("leaf=3,4", "leaf=3,0")),
        (9, listing("leaf=3,4", "leaf=3,5")),
        (10, listing(&LISTING[LISTING.find("leaf").unwrap()..], ring)),
        (11, listing("slack=0", "slack=1")),
        (12, listing("wire=32", "wire=33")),
        (13, net("10,10,70", "10,40000000,70")),
    ];
    all.map(|(number, (net, listing))| (number, net, listing))
        .into()
}
