//! Time per call of several rivals on the same inputs, in turn.

use std::time::Instant;

const ROUNDS: usize = 25;
/// One timed stretch lasts about this long, in nanoseconds, or one call: short,
/// so that few are interrupted and the median passes over those that are.
const STRETCH: f64 = 100_000.0;

pub type Rival<'a, T> = &'a mut dyn FnMut(&T);

/// Nanoseconds per call of each rival: the mean over the inputs of the median
/// time on each. The rivals take turns, so that a slow moment of the machine
/// hits all of them.
pub fn compare<T, const N: usize>(inputs: &[T], rivals: &mut [Rival<T>; N]) -> [f64; N] {
    compare_in(ROUNDS, inputs, rivals)
}

/// In so many rounds.
pub fn compare_in<T, const N: usize>(
    rounds: usize,
    inputs: &[T],
    rivals: &mut [Rival<T>; N],
) -> [f64; N] {
    let mut sums = [0.0; N];
    for input in inputs {
        let times = on_one(rounds, input, rivals);
        for (sum, time) in sums.iter_mut().zip(times) {
            *sum += time;
        }
    }
    sums.map(|sum| sum / inputs.len() as f64)
}

fn on_one<T, const N: usize>(rounds: usize, input: &T, rivals: &mut [Rival<T>; N]) -> [f64; N] {
    let mut repeated = [0; N];
    for (repeated, rival) in repeated.iter_mut().zip(rivals.iter_mut()) {
        *repeated = repeats(input, rival);
    }
    let mut times: [Vec<f64>; N] = std::array::from_fn(|_| Vec::new());
    for _ in 0..rounds {
        for ((times, rival), repeated) in times.iter_mut().zip(rivals.iter_mut()).zip(repeated) {
            times.push(per_call(repeated, input, rival));
        }
    }
    times.map(median)
}

/// From a second call, since the first is slow.
fn repeats<T>(input: &T, rival: &mut Rival<T>) -> usize {
    rival(input);
    (STRETCH / per_call(1, input, rival)).clamp(1.0, 1e4) as usize
}

fn per_call<T>(repeats: usize, input: &T, rival: &mut Rival<T>) -> f64 {
    let start = Instant::now();
    for _ in 0..repeats {
        rival(input);
    }
    (start.elapsed().as_nanos() as f64).max(1.0) / repeats as f64
}

pub fn median(mut times: Vec<f64>) -> f64 {
    times.sort_by(f64::total_cmp);
    times[times.len() / 2]
}
