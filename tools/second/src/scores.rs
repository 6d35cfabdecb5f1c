//! The router's score in a session: the library's against the references', and
//! against what request 8 says of every one.

use crate::library;
use crate::session::Session;
use crate::terms;
use second_reference::answer::{Answer, Refusal, Score};
use second_reference::binary64;
use second_reference::terms::Terms;
use second_reference::{plain, score};

/// What was found of the library's scores.
#[derive(Clone, Copy, Debug, Default)]
pub struct Scores {
    /// Not refused.
    pub given: u64,
    /// Of these the zeros, and those zeros that the products alone make minus
    /// zero: nothing of a negative slack less nothing.
    pub zero: u64,
    pub of_negative: u64,
    /// By the cap, the slack being above it.
    pub capped: u64,
    /// Refused by 14, and for a low slack alone.
    pub refused: u64,
    pub low: u64,
}

/// A net and a listing, and what the library's judge says of them.
pub struct Judged {
    pub net: Vec<u8>,
    pub listing: Vec<u8>,
    pub answer: Answer,
}

impl Session {
    pub fn judged(&mut self, net: Vec<u8>, listing: Vec<u8>) -> Judged {
        let answer = self.judge(&net, &listing);
        Judged {
            net,
            listing,
            answer,
        }
    }

    /// By the library and by both references, bit for bit, and exact.
    pub fn score(&mut self, judged: &Judged, terms: Terms) -> Score {
        self.count().scores += 1;
        let (net, listing) = (&judged.net, &judged.listing);
        let got = library::score(net, listing, terms);
        self.count_number(4, got.number);
        for (who, expected) in [
            ("slow", score::score(net, listing, terms)),
            ("plain", plain::score(net, listing, terms)),
        ] {
            if got != expected {
                let what = format!("{who} {expected:?}, {}", shown(expected));
                self.disagree_on_score(&what, judged, terms, got);
            }
        }
        self.count_score(judged.answer, terms, got);
        if !is_due(judged.answer, terms, got) {
            let what = format!("but by the library's judge {:?}", judged.answer);
            self.disagree_on_score(&what, judged, terms, got);
        }
        got
    }

    /// A demand on the library's score, beyond its equality with others.
    pub fn expect_score(&mut self, holds: bool, what: &str, judged: &Judged, by: (Terms, Score)) {
        if !holds {
            self.disagree_on_score(what, judged, by.0, by.1);
        }
    }

    fn disagree_on_score(&mut self, what: &str, judged: &Judged, terms: Terms, got: Score) {
        let what = format!(
            "score by {terms:?}\nlibrary {got:?}, {}\n{what}",
            shown(got)
        );
        let texts = [("net", &judged.net[..]), ("listing", &judged.listing)];
        self.disagree(&what, &texts);
    }

    fn count_score(&mut self, judged: Answer, terms: Terms, got: Score) {
        let scores = &mut self.scores;
        match got.number {
            0 => {
                scores.given += 1;
                scores.capped += u64::from(judged.slack > terms.cap);
                let zero = got.bits == 0;
                scores.zero += u64::from(zero);
                let of_negative = terms.alpha == 0 && judged.slack < 0;
                scores.of_negative += u64::from(zero && of_negative);
            }
            14 => {
                scores.refused += 1;
                scores.low += u64::from(terms::are_in_range(terms, 0));
            }
            _ => {}
        }
    }
}

fn shown(score: Score) -> f64 {
    f64::from_bits(score.bits)
}

/// Judge's refusal, then 14; else "1,024 times it is the whole number A × min(..)
/// - B × wire, and a zero score is plus zero".
fn is_due(judged: Answer, terms: Terms, got: Score) -> bool {
    let refused = |number, text, line| Score::of(Err(Refusal { number, text, line }));
    if judged.number != 0 {
        return got == refused(judged.number, judged.text, judged.line);
    }
    if !terms::are_in_range(terms, judged.slack) {
        return got == refused(14, 0, 0);
    }
    let least = i128::from(judged.slack.min(terms.cap));
    let whole = i128::from(terms.alpha) * least - i128::from(terms.beta) * i128::from(judged.wire);
    let exact = binary64::in_1024ths(got.bits) == Some(whole);
    let plus_zero = whole != 0 || got.bits == 0;
    got == Score::of(Ok(got.bits)) && exact && plus_zero
}

#[cfg(test)]
mod tests {
    use super::*;

    /// Of slack -4 and wire 7: the score itself, one that is off, both zeros.
    #[test]
    fn only_the_exact_score_is_due() {
        let judged = Answer::done(-4, 7, -4);
        let due = |alpha, beta, score: f64| {
            let score = Score::of(Ok(score.to_bits()));
            is_due(judged, Terms::new(alpha, beta, 5), score)
        };
        assert!(due(1024, 1024, -11.0));
        assert!(due(512, 1, -2.0 - 7.0 / 1024.0));
        assert!(due(0, 0, 0.0));
        for wrong in [-0.0, 11.0, -11.5, -11.000_000_000_000_002, f64::NAN] {
            assert!(!due(1024, 1024, wrong), "{wrong}");
            assert!(!due(0, 0, wrong), "{wrong}");
        }
    }

    #[test]
    fn only_the_first_refusal_is_due() {
        let refused = |number, text, line| Refusal { number, text, line };
        let accepted = Answer::done(-4, 7, -4);
        let false_wire = Answer::refused(refused(12, 2, 2));
        let by_14 = Score::of(Err(refused(14, 0, 0)));
        let by_12 = Score::of(Err(refused(12, 2, 2)));
        for (judged, alpha, due) in [(accepted, -1, by_14), (false_wire, -1, by_12)] {
            let terms = Terms::new(alpha, 1, 1);
            for got in [by_14, by_12, Score::of(Ok(0))] {
                assert_eq!(is_due(judged, terms, got), got == due);
            }
        }
    }
}
