//! What the second and the third plan have in common: need is not looked at, the
//! judge measures them as they are stated, and nets are refused as by the first.

use super::spoilt::spoilt;
use crate::damage;
use crate::metals;
use crate::nets;
use crate::random::Random;
use crate::session::{Planned, Session};
use crate::streets;
use repeater_tree::{LISTING_LENGTH, NET_LENGTH};
use second_reference::kraft;
use second_reference::listing::Listing;
use second_reference::net::{Net, NEED};

pub struct Further {
    /// In words.
    pub name: &'static str,
    pub plan: fn(&mut Session, &[u8], usize) -> Planned,
    /// What its request says of every one.
    pub check: fn(&mut Session, &Net, &Planned),
    /// Counts those of nets that the first plan refuses for their need.
    pub unreachable: fn(&mut Session) -> &mut u64,
}

/// Of any shape at all.
pub fn drawn(r: &mut Random, n: usize) -> Net {
    if r.once_in(2) {
        nets::any(r, n)
    } else {
        metals::drawn(r, streets::any, n)
    }
}

impl Further {
    /// Planned and judged with the same slack and wire, best being no less, and
    /// as its request says.
    pub fn plan_and_judge(&self, s: &mut Session, net: &Net) -> Planned {
        let text = net.text();
        let plan = (self.plan)(s, &text, LISTING_LENGTH);
        let what = format!("a net in the format has no {}", self.name);
        s.expect(plan.answer.number == 0, &what, plan.answer, &text, b"");
        if plan.answer.number == 0 {
            let judged = s.judge(&text, plan.listing());
            let same = (judged.number, judged.slack, judged.wire)
                == (0, plan.answer.slack, plan.answer.wire)
                && judged.last >= judged.slack;
            let what = format!("the judge measures a {} otherwise", self.name);
            s.expect(same, &what, judged, &text, plan.listing());
            (self.check)(s, net, &plan);
        }
        plan
    }

    /// Whatever the need, it is the same; the first plan refuses the net where the
    /// need is out of reach.
    pub fn ignoring_need(&self, s: &mut Session, r: &mut Random, mut net: Net) {
        let best = kraft::maximum(&net) as i64;
        net.need = NEED.0;
        let plan = self.plan_and_judge(s, &net);
        let far = r.between(NEED.0, NEED.1);
        for need in [plan.answer.slack, best, best + 1, far, NEED.1] {
            net.need = need.clamp(NEED.0, NEED.1);
            let text = net.text();
            let other = (self.plan)(s, &text, LISTING_LENGTH);
            let what = format!("the {} depends on need", self.name);
            let same = (other.answer, &other.out) == (plan.answer, &plan.out);
            s.expect(same, &what, other.answer, &text, other.listing());
            let first = s.plan(&text, LISTING_LENGTH).answer;
            let told = (first.number == 5) == (best < net.need);
            s.expect(told, "5 is not the first plan's", first, &text, b"");
            *(self.unreachable)(s) += u64::from(first.number == 5);
        }
    }

    /// Of nets that are given.
    pub fn given<'a>(
        &self,
        s: &mut Session,
        r: &mut Random,
        all: impl Iterator<Item = &'a (&'static str, &'static [u8])>,
    ) {
        for (_, text) in all {
            match Net::read(text) {
                Ok(net) => self.ignoring_need(s, r, net),
                Err(_) => s.disagree("the slow reference refuses a marked net", &[("net", text)]),
            }
        }
    }

    /// With x and y exchanged the tree is the same but for its points, whose x and
    /// y are exchanged.
    pub fn mirrored(&self, s: &mut Session, r: &mut Random) {
        let n = r.between(1, 40) as usize;
        let net = drawn(r, n);
        let other = metals::mirrored(&net);
        let one = (self.plan)(s, &net.text(), LISTING_LENGTH);
        let two = (self.plan)(s, &other.text(), LISTING_LENGTH);
        let mut expected = Listing::read(one.listing(), &net).ok();
        if let Some(listing) = &mut expected {
            for at in &mut listing.tree.point {
                *at = metals::exchanged(*at);
            }
        }
        let got = Listing::read(two.listing(), &other).ok();
        let same = got.is_some() && got == expected;
        let what = format!("a mirrored net has another {}", self.name);
        s.expect(same, &what, two.answer, &other.text(), two.listing());
    }

    /// 6 exactly where the output is shorter than the listing, reachable or not.
    pub fn outputs(&self, s: &mut Session, r: &mut Random) {
        let n = r.pick(&[1, 2, 3, 5, 9, 20, 40]);
        let mut net = drawn(r, n);
        net.need = r.pick(&[NEED.0, 0, NEED.1]);
        let text = net.text();
        let exact = (self.plan)(s, &text, 2 * LISTING_LENGTH).answer.last as usize;
        let below = r.index(exact.max(1));
        for length in [0, 1, exact.saturating_sub(1), exact, exact + 1, below] {
            let answer = (self.plan)(s, &text, length).answer;
            let told = (answer.number == 6) == (length < exact);
            let what = "6 is not given exactly where the output is too short";
            s.expect(told, what, answer, &text, b"");
        }
    }

    /// Damaged nets, far pins among them, are refused as by the first plan.
    pub fn spoilt_nets(&self, s: &mut Session, r: &mut Random) {
        let n = r.between(1, 8) as usize;
        let net = drawn(r, n);
        let text = net.text();
        for _ in 0..10 {
            let other = spoilt(r, &text);
            self.refused_alike(s, r, &other);
        }
        let (far, _) = nets::with_far_pin(r, net);
        self.refused_alike(s, r, &far.text());
        let other = spoilt(r, &far.text());
        self.refused_alike(s, r, &other);
    }

    /// Both refuse the net so, or neither refuses it: 5 and 6 are not of the net.
    fn refused_alike(&self, s: &mut Session, r: &mut Random, net: &[u8]) {
        let length = r.pick(&[0, 60, LISTING_LENGTH]);
        let one = s.plan(net, length).answer;
        let two = (self.plan)(s, net, length).answer;
        let of_net = |number: u8| !matches!(number, 0 | 5 | 6);
        let alike = one == two || !(of_net(one.number) || of_net(two.number));
        s.expect(
            alike && two.number != 5,
            "the net is refused otherwise",
            two,
            net,
            b"",
        );
    }

    /// Cut at every place, with the damages due for every text, and at its length
    /// limit and past it.
    pub fn cuts(&self, s: &mut Session, r: &mut Random) {
        let n = r.between(1, 6) as usize;
        let text = drawn(r, n).text();
        for end in 0..=text.len() {
            self.refused_alike(s, r, &text[..end]);
        }
        for other in damage::whole(&text) {
            self.refused_alike(s, r, &other);
        }
        for length in [NET_LENGTH - 1, NET_LENGTH, NET_LENGTH + 1, 3 * NET_LENGTH] {
            for other in damage::of_length(r, &text, length) {
                self.refused_alike(s, r, &other);
            }
        }
    }
}
