//! The router's score in floats.

use crate::answer::Refusal;
use crate::terms::Terms;

/// A weight of 1, in 1024ths.
const ONE: i64 = 1024;
/// Of the cap above zero, of a slack below it.
const FARTHEST: i64 = 1_000_000_000_000;

/// Each exactly so many 1024ths.
struct Weights {
    alpha: f64,
    beta: f64,
}

impl Weights {
    fn of(terms: Terms) -> Weights {
        Weights {
            alpha: terms.alpha as f64 / ONE as f64,
            beta: terms.beta as f64 / ONE as f64,
        }
    }
}

pub fn score(slack: i64, wire: i64, terms: Terms) -> Result<f64, Refusal> {
    if !is_allowed(terms) {
        return refuse();
    }
    let capped = slack.min(terms.cap);
    if capped < -FARTHEST {
        return refuse();
    }
    let weights = Weights::of(terms);
    let score = weights.alpha * capped as f64 - weights.beta * wire as f64;
    // A weight of 0 on a negative slack makes minus zero, which adding zero turns.
    Ok(score + 0.0)
}

fn is_allowed(terms: Terms) -> bool {
    (0..=ONE).contains(&terms.alpha)
        && (0..=ONE).contains(&terms.beta)
        && (0..=FARTHEST).contains(&terms.cap)
}

fn refuse<T>() -> Result<T, Refusal> {
    Err(Refusal {
        number: 14,
        text: 0,
        line: 0,
    })
}
