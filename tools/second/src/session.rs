//! Runs cases on the library and on the references, counts them, and prints
//! every disagreement so that it can be replayed.

use crate::decided::Decided;
use crate::deletions::Deletions;
use crate::library;
use crate::planners::{Planner, GATHERED, PLAIN, SLOW};
use crate::scores::Scores;
use crate::short::Shorts;
use crate::trees;
use crate::weighted::Weighted;
use second_reference::answer::Answer;
use second_reference::gathered::Checked;
use second_reference::listing::Listing;
use second_reference::net::{Net, Sink, COORDINATE, PIN_LIMIT};
use second_reference::{gathered, kraft, plain, slow};
use std::collections::BTreeMap;

/// Past the output lent to the library; must stay as it was.
pub(crate) const GUARD: usize = 64;
/// Enough to see what is wrong without flooding the screen.
const MOST_PRINTED: u64 = 20;
const LAST_NUMBER: u8 = 16;
/// Gathering takes long on large nets: one case in so many has them.
const LARGE_GATHERED: u64 = 8;

/// What was compared. Only the first six run the library.
#[derive(Clone, Copy, Debug, Default)]
pub struct Counts {
    /// First plans.
    pub plans: u64,
    /// Short trees.
    pub shorts: u64,
    /// Third plans.
    pub weighted: u64,
    pub judgements: u64,
    pub scores: u64,
    /// Deletions of a pin, refused ones too.
    pub deleted: u64,
    /// Runs of the programs.
    pub runs: u64,
    /// Rival trees that the tool measures itself, against the library's best.
    pub rivals: u64,
    /// Nets on which the tool's own gathered numbers are held to their
    /// definitions.
    pub gathered: u64,
    /// Spanning trees that the tool measures itself, against the short tree.
    pub spanning: u64,
    /// Trees that the tool measures itself, against the third plan's sum of
    /// weight × delay.
    pub heavier: u64,
    pub disagreements: u64,
}

impl Counts {
    pub fn calls(&self) -> u64 {
        let plans = self.plans + self.shorts + self.weighted;
        plans + self.judgements + self.scores + self.deleted
    }

    pub fn own(&self) -> u64 {
        self.rivals + self.gathered + self.spanning + self.heavier
    }

    fn add(&mut self, other: &Counts) {
        self.plans += other.plans;
        self.shorts += other.shorts;
        self.weighted += other.weighted;
        self.judgements += other.judgements;
        self.scores += other.scores;
        self.deleted += other.deleted;
        self.runs += other.runs;
        self.rivals += other.rivals;
        self.gathered += other.gathered;
        self.spanning += other.spanning;
        self.heavier += other.heavier;
        self.disagreements += other.disagreements;
    }
}

/// Nets of which one is a multiple of the other.
#[derive(Clone, Copy, Debug, Default)]
pub struct Pairs {
    /// Both planned.
    pub planned: u64,
    /// Both refused for their need.
    pub refused: u64,
    /// Listings over such nets, both judged.
    pub judged: u64,
}

#[derive(Default)]
pub struct Session {
    kind: &'static str,
    seed: u64,
    /// By kind of case.
    pub counts: BTreeMap<&'static str, Counts>,
    /// Answers by the refusal's number: of plan, of judge, of the short tree, of
    /// the third plan, of score, of the deletion of a pin.
    pub numbers: [[u64; LAST_NUMBER as usize + 1]; 6],
    /// Plans in which an edge above a branch point was split.
    pub split_above_branch_point: u64,
    /// Plans of nets with a pin just at the limit, and at an end of the range.
    pub pin_at_limit: u64,
    pub pin_at_end: u64,
    /// Plans by the gathering planner, and its numbers held to their
    /// definitions.
    pub gathered_plans: u64,
    pub gathered: Checked,
    /// Plans by what the two factors decide.
    pub metals: Decided,
    pub pairs: Pairs,
    pub shorts: Shorts,
    pub weighted: Weighted,
    pub scores: Scores,
    pub deletions: Deletions,
}

/// What a plan left in the output, beside its figures.
pub struct Planned {
    pub answer: Answer,
    pub out: Vec<u8>,
}

impl Planned {
    pub fn listing(&self) -> &[u8] {
        &self.out[..self.answer.last as usize]
    }
}

impl Session {
    pub fn start(&mut self, kind: &'static str, seed: u64) {
        self.kind = kind;
        self.seed = seed;
    }

    pub fn total(&self) -> Counts {
        let mut total = Counts::default();
        self.counts.values().for_each(|counts| total.add(counts));
        total
    }

    /// The counts of the kind that runs.
    pub fn count(&mut self) -> &mut Counts {
        self.counts.entry(self.kind).or_default()
    }

    pub fn seed(&self) -> u64 {
        self.seed
    }

    /// By the place of its call among the numbers.
    pub(crate) fn count_number(&mut self, call: usize, number: u8) {
        self.numbers[call][number.min(LAST_NUMBER) as usize] += 1;
    }

    /// Plans with an output of this length, on the library and on each
    /// reference that can.
    pub fn plan(&mut self, net: &[u8], length: usize) -> Planned {
        self.count().plans += 1;
        let mut out = fill(length + GUARD);
        let answer = library::plan(net, &mut out[..length]);
        self.count_number(0, answer.number);
        let got = (answer, &out[..]);
        let plain = self.compare_with(PLAIN, net, got);
        let read = Net::read(net);
        let small = !matches!(&read, Ok(net) if net.sinks.len() > slow::MOST_SINKS);
        if small {
            self.compare_with(SLOW, net, got);
        }
        if let Ok(read) = &read {
            if plain.answer.number == 0 {
                let tree = Listing::read(plain.listing(), read)
                    .expect("a plan's listing")
                    .tree;
                let split = trees::split_above_branch_point(&tree);
                self.split_above_branch_point += u64::from(split);
                self.count_pins(read);
                self.metals.count(read, &tree, small);
            }
            if !small {
                self.compare_kraft(net, length, answer, read);
            }
            if small || self.seed % LARGE_GATHERED == 0 {
                let gathered = self.compare_with(GATHERED, net, got);
                self.gathered_plans += u64::from(gathered.answer.number == 0);
            }
        }
        out.truncate(length);
        Planned { answer, out }
    }

    /// The reference's plan with an output of the same length.
    pub(crate) fn compare_with(
        &mut self,
        by: Planner,
        net: &[u8],
        got: (Answer, &[u8]),
    ) -> Planned {
        let mut out = fill(got.1.len());
        let length = out.len() - GUARD;
        let answer = by.1(net, &mut out[..length]);
        self.compare_plan(by.0, net, got, (answer, &out));
        Planned { answer, out }
    }

    /// Each gathered number and each edge's number against its definition.
    pub fn check_gathered(&mut self, net: &Net) {
        self.count().gathered += 1;
        match gathered::check(net) {
            Ok(checked) => {
                self.gathered.vertices += checked.vertices;
                self.gathered.edges += checked.edges;
            }
            Err(what) => self.disagree(&what, &[("net", &net.text())]),
        }
    }

    fn count_pins(&mut self, net: &Net) {
        let at_limit = |s: &Sink| net.root.distance(s.at) == PIN_LIMIT as i128;
        let at_end = |s: &Sink| s.at.x.abs().max(s.at.y.abs()) == COORDINATE as i128;
        self.pin_at_limit += u64::from(net.sinks.iter().any(at_limit));
        self.pin_at_end += u64::from(net.sinks.iter().any(at_end));
    }

    /// What the definitions alone say of a large net's plan.
    fn compare_kraft(&mut self, text: &[u8], length: usize, answer: Answer, net: &Net) {
        let best = kraft::maximum(net);
        let holds = match answer.number {
            5 => best < net.need as i128,
            6 => best >= net.need as i128 && length < repeater_tree::LISTING_LENGTH,
            _ => answer.slack as i128 == best && best >= net.need as i128,
        };
        if !holds {
            let what = format!("library {answer:?}\nbut the Kraft maximum is {best}");
            self.disagree(&what, &[("net", text)]);
        }
    }

    fn compare_plan(&mut self, who: &str, net: &[u8], got: (Answer, &[u8]), want: (Answer, &[u8])) {
        if got == want {
            return;
        }
        let different = got.1.iter().zip(want.1).position(|(a, b)| a != b);
        let length = want.1.len() - GUARD;
        let what = format!(
            "plan with an output of {length} bytes\nlibrary {:?}\n{who} {:?}\n\
             first different output byte: {different:?}",
            got.0, want.0
        );
        // The filling beyond the listings would only hide them.
        let written = got.0.last.max(want.0.last) as usize;
        let shown = written
            .max(different.map_or(0, |at| at + 1))
            .min(length + GUARD);
        self.disagree(
            &what,
            &[
                ("net", net),
                ("library's output", &got.1[..shown]),
                (who, &want.1[..shown]),
            ],
        );
    }

    pub fn judge(&mut self, net: &[u8], listing: &[u8]) -> Answer {
        self.count().judgements += 1;
        let answer = library::judge(net, listing);
        self.count_number(1, answer.number);
        for (who, expected) in [
            ("slow", slow::judge(net, listing)),
            ("plain", plain::judge(net, listing)),
        ] {
            if answer != expected {
                let what = format!("judge\nlibrary {answer:?}\n{who} {expected:?}");
                self.disagree(&what, &[("net", net), ("listing", listing)]);
            }
        }
        answer
    }

    /// A demand on the library's answer, beyond its equality with others.
    pub fn expect(&mut self, holds: bool, what: &str, answer: Answer, net: &[u8], listing: &[u8]) {
        if !holds {
            let what = format!("{what}\nlibrary {answer:?}");
            self.disagree(&what, &[("net", net), ("listing", listing)]);
        }
    }

    pub fn disagree(&mut self, what: &str, texts: &[(&str, &[u8])]) {
        self.count().disagreements += 1;
        if self.total().disagreements > MOST_PRINTED {
            return;
        }
        println!("DISAGREEMENT --replay {}:{}\n{what}", self.kind, self.seed);
        for (name, text) in texts {
            println!("{name}, {} bytes: \"{}\"", text.len(), text.escape_ascii());
        }
        println!();
    }
}

/// No listing has such bytes, so a byte that was written shows.
pub(crate) fn fill(length: usize) -> Vec<u8> {
    (0..length).map(|i| 128 + (i * 31 % 127) as u8).collect()
}
