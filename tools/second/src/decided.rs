//! How often the two factors decide a plan: what other rules would give.

use second_reference::gathered;
use second_reference::net::{Factors, Net};
use second_reference::tree::{Point, Tree};

/// The net stretched by its factors: all delays are the same, but nearness and
/// wire are weighed. Its points may leave the range.
fn stretched(net: &Net) -> Net {
    let mut other = net.clone();
    let weighed = |p: Point| Point {
        x: p.x * net.wire.horizontal as i128,
        y: p.y * net.wire.vertical as i128,
    };
    other.root = weighed(net.root);
    for sink in &mut other.sinks {
        sink.at = weighed(sink.at);
    }
    other.wire = Factors::equal(1);
    other
}

/// Plans by what decides them.
#[derive(Clone, Copy, Debug, Default)]
pub struct Decided {
    /// With factors that differ.
    pub differing: u64,
    /// Of these, those that were planned by other rules too.
    pub tried: u64,
    /// Another tree by weighed nearness.
    pub nearness: u64,
    /// Another tree by either factor in both directions.
    pub both: u64,
}

impl Decided {
    /// A plan of the net; only a small one is planned by other rules.
    pub fn count(&mut self, net: &Net, tree: &Tree, small: bool) {
        let (h, v) = (net.wire.horizontal, net.wire.vertical);
        if h == v {
            return;
        }
        self.differing += 1;
        if !small {
            return;
        }
        self.tried += 1;
        let other = |net: &Net| gathered::planned(net).parent != tree.parent;
        let even = |factor| Net {
            wire: Factors::equal(factor),
            ..net.clone()
        };
        self.nearness += u64::from(other(&stretched(net)));
        self.both += u64::from(other(&even(h)) && other(&even(v)));
    }
}

#[cfg(test)]
mod tests {
    use super::*;
    use crate::metals;
    use crate::random::Random;
    use crate::ranges::NANOMETRES;

    /// Weighed nearness gives another tree on most nets of many ties, and so
    /// does one factor for both directions.
    #[test]
    fn other_rules_show() {
        let mut r = Random::new(6);
        let mut decided = Decided::default();
        for _ in 0..200 {
            let net = metals::spread_out(&mut r, &NANOMETRES, 12);
            decided.count(&net, &gathered::planned(&net), true);
        }
        assert_eq!(decided.tried, 200);
        assert!(decided.nearness > 100, "{decided:?}");
        assert!(decided.both > 100, "{decided:?}");
    }
}
