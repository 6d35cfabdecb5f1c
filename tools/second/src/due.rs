//! Nets whose times are chosen so that a tree has a chosen worst slack.

use crate::random::Random;
use second_reference::net::Net;
use second_reference::tree::{self, Tree};

/// One sink at least has this slack, the others have as much or more. A tree of
/// up to 200 sinks leaves the times in their range wherever it has its points.
pub fn with_worst_slack(r: &mut Random, net: &Net, tree: &Tree, worst: i64) -> Net {
    let mut due = net.clone();
    let first = 1 + r.index(net.sinks.len());
    for (sink, k) in due.sinks.iter_mut().zip(1..) {
        let delay = i128::from(sink.arrival) - tree::slack(net, tree, k);
        let any = r.between(0, 1_000_000);
        let spare = r.pick(&[0, 1, any, any]);
        let spare = if k == first { 0 } else { spare };
        sink.arrival = worst + spare + delay as i64;
    }
    due
}

#[cfg(test)]
mod tests {
    use super::*;
    use crate::kinds::random_listing;
    use crate::metals;
    use crate::ranges::NANOMETRES;
    use crate::shapes::SHAPES;
    use second_reference::tree::worst_slack;

    #[test]
    fn every_net_has_the_slack_and_is_in_the_format() {
        let mut r = Random::new(13);
        for (name, make) in SHAPES {
            for n in [1, 2, 9, 40, 200] {
                let net = metals::drawn(&mut r, make, n);
                let tree = random_listing(&mut r, &NANOMETRES, &net).tree;
                for worst in [-1_000_000_000_001, -7, 0, 2_000_000_000_000] {
                    let due = with_worst_slack(&mut r, &net, &tree, worst);
                    assert_eq!(worst_slack(&due, &tree), worst.into(), "{name}");
                    assert_eq!(Net::read(&due.text()), Ok(due), "{name}");
                }
            }
        }
    }
}
