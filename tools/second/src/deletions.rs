//! A pin's deletion in a session: the library's against the references', and
//! against what request 9 says of every one.

use crate::deleted::{Delete, Deleted, Room};
use crate::library;
use crate::remaining::{self, Read};
use crate::scores::Judged;
use crate::session::Session;
use second_reference::answer::{Deletion, Refusal};
use second_reference::net::Net;
use second_reference::{deletion, plain};

/// What was found of the library's deletions.
#[derive(Clone, Copy, Debug, Default)]
pub struct Deletions {
    /// Not refused.
    pub given: u64,
    /// Of these the ones whose branch point hung on the root, and by what the
    /// sibling was.
    pub on_root: u64,
    pub beside_sink: u64,
    pub beside_branch_point: u64,
    /// Refused by 15, by 16, by 6.
    pub no_sink: u64,
    pub last_sink: u64,
    pub too_short: u64,
    /// Nets that went down to one sink, pin by pin.
    pub chains: u64,
}

impl Deletions {
    /// Where the sink hung, if there was one.
    fn count_place(&mut self, before: &Read, sink: usize) {
        let n = before.net.sinks.len();
        if sink > n {
            return;
        }
        let above = before.tree.parent[before.branch_point(sink)];
        self.on_root += u64::from(above == 0);
        match before.sibling(sink) {
            Some(v) if v <= n => self.beside_sink += 1,
            _ => self.beside_branch_point += 1,
        }
    }
}

impl Session {
    /// By the library and by both references: the same figures, and the same bytes
    /// in all of both outputs.
    pub fn delete_pin(&mut self, judged: &Judged, sink: usize, room: Room) -> Deleted {
        self.count().deleted += 1;
        let got = Deleted::by(library::delete_pin, judged, sink, room);
        self.count_number(5, got.answer.number);
        self.count_deletion(judged, sink, got.answer.number);
        let references: [(&str, Delete); 2] =
            [("slow", deletion::delete_pin), ("plain", plain::delete_pin)];
        for (who, delete) in references {
            let expected = Deleted::by(delete, judged, sink, room);
            if got != expected {
                self.differ_on_deletion(who, judged, (sink, room), &got, &expected);
            }
        }
        let due = is_due(judged, sink, got.answer);
        let what = format!("by the library's judge {:?}", judged.answer);
        self.expect_deletion(due, &what, judged, (sink, room), &got);
        let what = "a byte beyond the texts is not as it was";
        self.expect_deletion(got.is_kept_beyond(), what, judged, (sink, room), &got);
        got
    }

    /// A demand on the library's deletion, beyond its equality with others.
    pub fn expect_deletion(
        &mut self,
        holds: bool,
        what: &str,
        judged: &Judged,
        by: (usize, Room),
        got: &Deleted,
    ) {
        if holds {
            return;
        }
        let what = format!(
            "deletion of sink {} with {:?}\nlibrary {:?}\nbut {what}",
            by.0, by.1, got.answer
        );
        let texts = [
            ("net", &judged.net[..]),
            ("listing", &judged.listing),
            ("shorter net", got.net()),
            ("shorter listing", got.listing()),
        ];
        self.disagree(&what, &texts);
    }

    fn differ_on_deletion(
        &mut self,
        who: &str,
        judged: &Judged,
        by: (usize, Room),
        got: &Deleted,
        expected: &Deleted,
    ) {
        let first = |one: &[u8], two: &[u8]| one.iter().zip(two).position(|(a, b)| a != b);
        let net = first(&got.net_out, &expected.net_out);
        let listing = first(&got.listing_out, &expected.listing_out);
        let what = format!(
            "{who} {:?}\nfirst different byte: of the net {net:?}, of the listing {listing:?}",
            expected.answer
        );
        self.expect_deletion(false, &what, judged, by, got);
    }

    fn count_deletion(&mut self, judged: &Judged, sink: usize, number: u8) {
        let deletions = &mut self.deletions;
        match number {
            0 => {
                deletions.given += 1;
                if let Some(before) = Read::of(&judged.net, &judged.listing) {
                    deletions.count_place(&before, sink);
                }
            }
            6 => deletions.too_short += 1,
            15 => deletions.no_sink += 1,
            16 => deletions.last_sink += 1,
            _ => {}
        }
    }

    /// The shorter net and its listing, as request 9 says; none where they are not.
    pub fn shorten(&mut self, judged: &Judged, sink: usize) -> Option<Judged> {
        let room = Room::as_before(judged);
        let got = self.delete_pin(judged, sink, room);
        let shorter = self.judged(got.net().to_vec(), got.listing().to_vec());
        let fault = fault_of(judged, sink, &got, &shorter);
        if let Some(what) = fault {
            self.expect_deletion(false, what, judged, (sink, room), &got);
        }
        fault.is_none().then_some(shorter)
    }
}

/// What is not as request 9 says of a net of more than one sink.
fn fault_of(judged: &Judged, sink: usize, got: &Deleted, shorter: &Judged) -> Option<&'static str> {
    if got.answer.number != 0 {
        return Some("nothing is to be refused");
    }
    if shorter.answer.number != 0 {
        return Some("the library's judge refuses the shorter listing");
    }
    let before = Read::of(&judged.net, &judged.listing);
    let after = Read::of(&shorter.net, &shorter.listing);
    let (Some(before), Some(after)) = (before, after) else {
        return Some("the slow reference cannot read the texts");
    };
    let loses = shorter.answer.slack < judged.answer.slack;
    if loses || shorter.answer.wire > judged.answer.wire {
        return Some("the worst slack falls or the wire grows");
    }
    remaining::fault(&before, sink, &after)
}

/// Judge's refusals, then 15, then 16; then 6 or nothing.
fn is_due(judged: &Judged, sink: usize, got: Deletion) -> bool {
    let refused = |number, text, line| Deletion::of(Err(Refusal { number, text, line }));
    let by = judged.answer;
    if by.number != 0 {
        return got == refused(by.number, by.text, by.line);
    }
    let n = Net::read(&judged.net).map_or(0, |net| net.sinks.len());
    if sink == 0 || sink > n {
        return got == refused(15, 0, 0);
    }
    if n == 1 {
        return got == refused(16, 0, 0);
    }
    let given = Deletion::of(Ok((got.net_bytes, got.listing_bytes)));
    got == refused(6, 0, 0) || got == given
}

#[cfg(test)]
mod tests {
    use super::*;
    use second_reference::answer::Answer;

    const LONE: &[u8] = b"root=0,0\nbranch=20\nwire=2,2\nneed=-4\nsinks=1\nsink=3,4,10,1\n";
    const PAIR: &[u8] =
        b"root=0,0\nbranch=3\nwire=1,1\nneed=2\nsinks=2\nsink=0,0,5,1\nsink=1,0,6,1\n";

    #[test]
    fn only_the_first_refusal_is_due() {
        let refusal = |number, text, line| Refusal { number, text, line };
        let accepted = Answer::done(-4, 7, -4);
        let false_wire = Answer::refused(refusal(12, 2, 2));
        let all = [(12, 2, 2), (15, 0, 0), (16, 0, 0), (6, 0, 0)];
        for (net, answer, sink, due) in [
            (LONE, false_wire, 0, &[12][..]),
            (LONE, accepted, 0, &[15]),
            (LONE, accepted, 2, &[15]),
            (LONE, accepted, 1, &[16]),
            (PAIR, accepted, usize::MAX, &[15]),
            (PAIR, accepted, 2, &[6, 0]),
        ] {
            let judged = Judged {
                net: net.to_vec(),
                listing: Vec::new(),
                answer,
            };
            for (number, text, line) in all {
                let got = Deletion::of(Err(refusal(number, text, line)));
                assert_eq!(is_due(&judged, sink, got), due.contains(&number));
            }
            let given = Deletion::of(Ok((50, 40)));
            assert_eq!(is_due(&judged, sink, given), due.contains(&0));
        }
    }
}
