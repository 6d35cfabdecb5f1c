//! The router's score word by word, as 02's request 8 has it, by whole numbers
//! alone: the binary64 is put together from its bits.

use crate::answer::{Refusal, Score};
use crate::binary64;
use crate::slow;
use crate::terms::Terms;

/// "A and B from 0 to 1,024"
const WEIGHT: (i64, i64) = (0, 1_024);
/// "the cap is a whole number from 0 to 1,000,000,000,000"
const CAP: (i64, i64) = (0, 1_000_000_000_000);
/// 14 "if [..] min(..) is below" it. Request 5 came before and scales neither.
const LOWEST: i128 = -1_000_000_000_000;

pub fn score(net: &[u8], listing: &[u8], terms: Terms) -> Score {
    Score::of(try_score(net, listing, terms))
}

/// 14 "follows all of judge's refusals".
fn try_score(net: &[u8], listing: &[u8], terms: Terms) -> Result<u64, Refusal> {
    let (slack, wire, _) = slow::try_judge(net, listing)?;
    let least = i128::from(slack).min(i128::from(terms.cap));
    let in_range = within(terms.alpha, WEIGHT) && within(terms.beta, WEIGHT);
    if !in_range || !within(terms.cap, CAP) || least < LOWEST {
        return Err(Refusal {
            number: 14,
            text: 0,
            line: 0,
        });
    }
    Ok(binary64::of_1024ths(in_1024ths(terms, least, wire.into())))
}

fn within(value: i64, range: (i64, i64)) -> bool {
    range.0 <= value && value <= range.1
}

/// "A × min(..) - B × wire"
fn in_1024ths(terms: Terms, least: i128, wire: i128) -> i128 {
    i128::from(terms.alpha) * least - i128::from(terms.beta) * wire
}
