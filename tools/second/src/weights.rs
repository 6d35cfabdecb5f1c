//! Switching weights: what nets get instead of weights of 1. They are drawn
//! beside all other numbers, which stay as they were.

use crate::nets::shuffle;
use crate::random::Random;
use second_reference::net::{Net, WEIGHT};

/// So many weights.
pub type Weigh = fn(&mut Random, usize) -> Vec<i64>;

/// By name. All but the first have sinks that tie, with joined vertices too, or
/// trees that are deep.
pub const WEIGHTS: [(&str, Weigh); 9] = [
    ("any", any_in_range),
    ("ones", ones),
    ("equal", equal),
    ("few", few),
    ("ends", ends),
    ("sums", sums),
    ("powers", powers),
    ("fibonacci", fibonacci),
    ("heavy", heavy),
];

fn any_in_range(r: &mut Random, n: usize) -> Vec<i64> {
    drawn(n, || r.between(WEIGHT.0, WEIGHT.1))
}

fn drawn(n: usize, draw: impl FnMut() -> i64) -> Vec<i64> {
    std::iter::repeat_with(draw).take(n).collect()
}

fn ones(_: &mut Random, n: usize) -> Vec<i64> {
    vec![WEIGHT.0; n]
}

fn equal(r: &mut Random, n: usize) -> Vec<i64> {
    let any = r.between(WEIGHT.0, WEIGHT.1);
    vec![r.pick(&[any, WEIGHT.1]); n]
}

fn few(r: &mut Random, n: usize) -> Vec<i64> {
    let low = r.between(WEIGHT.0, WEIGHT.1 - 3);
    let low = r.pick(&[WEIGHT.0, low]);
    let kinds = r.between(1, 3);
    drawn(n, || low + r.between(0, kinds))
}

/// At an end of the range, or next to it.
fn ends(r: &mut Random, n: usize) -> Vec<i64> {
    let (low, high) = WEIGHT;
    let all = [low, low, low, high, high, high, low + 1, high - 1];
    drawn(n, || r.pick(&all))
}

/// Of which many are sums of others: sinks tie with joined vertices.
fn sums(r: &mut Random, n: usize) -> Vec<i64> {
    let unit = r.pick(&[1, 1, 7, 83]);
    drawn(n, || unit * r.pick(&[1, 1, 2, 2, 3, 4, 6, 8, 12]))
}

fn powers(r: &mut Random, n: usize) -> Vec<i64> {
    drawn(n, || 1 << r.between(0, 9))
}

/// 1, 1, 2, 3, .., 987, each the sum of the two before it as far as the range
/// goes, in this order or in any: one long path, then sinks of the last.
fn fibonacci(r: &mut Random, n: usize) -> Vec<i64> {
    let two = (WEIGHT.0, WEIGHT.0);
    let next = |&(a, b): &(i64, i64)| Some((b, if a + b > WEIGHT.1 { b } else { a + b }));
    let all = std::iter::successors(Some(two), next).map(|(a, _)| a);
    let mut all: Vec<i64> = all.take(n).collect();
    if r.once_in(2) {
        shuffle(r, &mut all);
    }
    all
}

/// One heavy sink among light ones.
fn heavy(r: &mut Random, n: usize) -> Vec<i64> {
    let mut all = drawn(n, || r.between(1, 2));
    all[r.index(n)] = WEIGHT.1;
    all
}

/// The net with these weights.
pub fn weighed(mut net: Net, weights: &[i64]) -> Net {
    for (sink, weight) in net.sinks.iter_mut().zip(weights) {
        sink.weight = *weight;
    }
    net
}

/// All of weight 1.
pub fn light(net: Net) -> Net {
    let n = net.sinks.len();
    weighed(net, &vec![WEIGHT.0; n])
}

/// With such weights, drawn beside.
pub fn by(r: &Random, weigh: Weigh, net: Net) -> Net {
    let weights = weigh(&mut r.beside("weights"), net.sinks.len());
    weighed(net, &weights)
}

/// Every other net with any weights, the others with such as tie or lie at the
/// ends.
pub fn any(r: &Random, net: Net) -> Net {
    let mut which = r.beside("which weights");
    let (_, weigh) = match which.index(2) {
        0 => WEIGHTS[0],
        _ => which.pick(&WEIGHTS[1..]),
    };
    by(r, weigh, net)
}

/// The weights by which joined vertices tie with sinks and with each other.
pub fn tying(r: &Random, net: Net) -> Net {
    let all: [Weigh; 5] = [equal, few, ends, sums, powers];
    let weigh = r.beside("which weights").pick(&all);
    by(r, weigh, net)
}

/// The weights by which trees get deep.
pub fn deepening(r: &Random, net: Net) -> Net {
    let all: [Weigh; 3] = [fibonacci, powers, heavy];
    let weigh = r.beside("which weights").pick(&all);
    by(r, weigh, net)
}

#[cfg(test)]
mod tests {
    use super::*;
    use crate::nets;
    use crate::ranges::NANOMETRES;
    use second_reference::net::Sink;

    #[test]
    fn all_are_in_the_format() {
        let mut r = Random::new(7);
        for (name, weigh) in WEIGHTS {
            for n in [1, 2, 3, 8, 40, 512] {
                let net = nets::common(&mut r, &NANOMETRES, n);
                let net = by(&r, weigh, net);
                assert_eq!(net.sinks.len(), n);
                assert_eq!(Net::read(&net.text()), Ok(net), "{name}");
            }
        }
    }

    #[test]
    fn fibonacci_ends_in_the_range() {
        let mut all = fibonacci(&mut Random::new(1), 18);
        all.sort();
        assert_eq!(all[..7], [1, 1, 2, 3, 5, 8, 13]);
        assert_eq!(all[14..], [610, 987, 987, 987]);
    }

    /// The net but for its weights, and all that is drawn after it, stay.
    #[test]
    fn nothing_else_depends_on_weights() {
        let (mut one, mut two) = (Random::new(9), Random::new(9));
        let net = nets::common(&mut one, &NANOMETRES, 20);
        let weighed = any(&one, net);
        let plain = nets::common(&mut two, &NANOMETRES, 20);
        let but_weights = |s: &Sink| (s.at, s.arrival);
        assert!(weighed.sinks.iter().any(|s| s.weight > 1));
        let pairs = weighed.sinks.iter().zip(&plain.sinks);
        assert!(pairs.clone().all(|(p, q)| but_weights(p) == but_weights(q)));
        assert_eq!(light(weighed), plain);
        assert_eq!(one.draw(), two.draw());
    }
}
