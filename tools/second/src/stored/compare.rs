//! A stored net's listings against what all planners, judges and programs give,
//! and against those of the net that it is a multiple of.

use super::set::original;
use super::{planned, Report, Stored};
use crate::library;
use crate::planners::{Planner, GATHERED, LIBRARY, PLAIN, SLOW};
use crate::planners::{SHORT_LIBRARY, SHORT_PLAIN, SHORT_SLOW};
use crate::planners::{WEIGHTED_LIBRARY, WEIGHTED_PLAIN, WEIGHTED_SLOW};
use crate::programs::{judge_text, refused, Programs, PLAN, PLAN_SHORT, PLAN_WEIGHTED};
use crate::scaled;
use second_reference::answer::{Answer, Refusal};
use second_reference::net::Net;
use second_reference::{kraft, plain, short, slow};
use std::io::{ErrorKind, Result};
use std::path::Path;

/// A listing of a plan that ignores need, and who must give it.
struct Further<'a> {
    what: &'static str,
    listing: &'a [u8],
    planners: &'a [Planner],
    program: &'static str,
}

impl Stored {
    /// Where the name says that this is a multiple of another, it is.
    pub fn compare_original(&self, folder: &Path, report: &mut Report) -> Result<()> {
        let Some((name, factor)) = original(&self.name) else {
            return Ok(());
        };
        report.images += 1;
        match Stored::read(folder, &name) {
            Err(e) if e.kind() == ErrorKind::NotFound => {
                self.fault(report, &format!("{name} is not there"));
            }
            original => self.compare_image(&original?, factor, report),
        }
        Ok(())
    }

    /// All texts are those of the original, so many times as large; the short
    /// tree's and the third plan's where both have one.
    fn compare_image(&self, original: &Stored, factor: i64, report: &mut Report) {
        let mut compare = |what: &str, own: &[u8], image: Option<Vec<u8>>| {
            if image.as_deref() != Some(own) {
                let name = &original.name;
                self.fault(
                    report,
                    &format!("its {what} is not {factor} times {name}'s"),
                );
            }
        };
        compare("net", &self.net, scaled::net(&original.net, factor));
        for (what, own, other) in [
            ("listing", &self.tree, &original.tree),
            ("short tree", &self.short, &original.short),
            ("third plan", &self.weighted, &original.weighted),
        ] {
            if let (Some(own), Some(other)) = (own, other) {
                compare(what, own, scaled::listing(other, factor));
            }
        }
    }

    pub fn compare(&self, programs: Option<&Programs>, report: &mut Report) -> Result<()> {
        match Net::read(&self.net) {
            Ok(net) => {
                report.nets += 1;
                report.sinks += net.sinks.len();
                self.compare_first(&net, programs, report)?;
                self.compare_short(&net, programs, report)?;
                self.compare_weighted(&net, programs, report)
            }
            Err(refusal) => {
                self.fault(report, &format!("no net in the format, {refusal:?}"));
                Ok(())
            }
        }
    }

    /// The first plan has the best slack, or is refused for the net's need.
    fn compare_first(
        &self,
        net: &Net,
        programs: Option<&Programs>,
        report: &mut Report,
    ) -> Result<()> {
        let mut planners = vec![LIBRARY, PLAIN, GATHERED];
        if net.sinks.len() <= slow::MOST_SINKS {
            report.slow += 1;
            planners.push(SLOW);
        }
        let Some(tree) = &self.tree else {
            return self.compare_refusals(&planners, programs, report);
        };
        let best = kraft::maximum(net) as i64;
        let plan = self.compare_listing("listing", tree, &planners, report);
        if plan.is_some_and(|plan| plan.slack != best) {
            self.fault(report, &format!("its slack is not the best, {best}"));
        }
        self.compare_printed(PLAN, tree, programs, report)?;
        self.judge(tree, plan, best, programs, report)
    }

    fn compare_short(
        &self,
        net: &Net,
        programs: Option<&Programs>,
        report: &mut Report,
    ) -> Result<()> {
        let Some(tree) = &self.short else {
            return Ok(());
        };
        report.shorts += 1;
        let mut planners = vec![SHORT_LIBRARY, SHORT_PLAIN];
        if net.sinks.len() <= short::MOST_SINKS {
            report.slow_shorts += 1;
            planners.push(SHORT_SLOW);
        }
        let short = Further {
            what: "short tree",
            listing: tree,
            planners: &planners,
            program: PLAN_SHORT,
        };
        self.compare_further(net, &short, programs, report)
    }

    fn compare_weighted(
        &self,
        net: &Net,
        programs: Option<&Programs>,
        report: &mut Report,
    ) -> Result<()> {
        let Some(tree) = &self.weighted else {
            return Ok(());
        };
        report.weighted += 1;
        let weighted = Further {
            what: "third plan",
            listing: tree,
            planners: &[WEIGHTED_LIBRARY, WEIGHTED_PLAIN, WEIGHTED_SLOW],
            program: PLAN_WEIGHTED,
        };
        self.compare_further(net, &weighted, programs, report)
    }

    fn compare_further(
        &self,
        net: &Net,
        by: &Further,
        programs: Option<&Programs>,
        report: &mut Report,
    ) -> Result<()> {
        let best = kraft::maximum(net) as i64;
        let plan = self.compare_listing(by.what, by.listing, by.planners, report);
        self.compare_printed(by.program, by.listing, programs, report)?;
        self.judge(by.listing, plan, best, programs, report)
    }

    /// The first planner's figures, if it has any.
    fn compare_listing(
        &self,
        what: &str,
        stored: &[u8],
        planners: &[Planner],
        report: &mut Report,
    ) -> Option<Answer> {
        let mut first = None;
        for (who, plan) in planners {
            let (answer, listing) = planned(*plan, &self.net);
            match answer.number {
                0 => self.compare_bytes(report, &format!("{who}'s {what}"), stored, &listing),
                _ => self.fault(report, &format!("{who} refuses the net, {answer:?}")),
            }
            first = first.or((answer.number == 0).then_some(answer));
        }
        first
    }

    /// Every planner says that the need is out of reach.
    fn compare_refusals(
        &self,
        planners: &[Planner],
        programs: Option<&Programs>,
        report: &mut Report,
    ) -> Result<()> {
        report.unreachable += 1;
        let expected = Answer::refused(Refusal {
            number: 5,
            text: 1,
            line: 4,
        });
        for (who, plan) in planners {
            let answer = planned(*plan, &self.net).0;
            if answer != expected {
                self.fault(report, &format!("{who} gives {answer:?}"));
            }
        }
        self.compare_printed(PLAN, &refused(expected), programs, report)
    }

    fn compare_printed(
        &self,
        program: &str,
        expected: &[u8],
        programs: Option<&Programs>,
        report: &mut Report,
    ) -> Result<()> {
        if let Some(programs) = programs {
            let printed = programs.plan(program, &self.net)?;
            let what = format!("what the program {program} prints");
            self.compare_bytes(report, &what, expected, &printed);
        }
        Ok(())
    }

    /// Every judge accepts the listing with the plan's slack and wire, and tells
    /// the best slack.
    fn judge(
        &self,
        listing: &[u8],
        plan: Option<Answer>,
        best: i64,
        programs: Option<&Programs>,
        report: &mut Report,
    ) -> Result<()> {
        let Some(plan) = plan else { return Ok(()) };
        let expected = Answer::done(plan.slack, plan.wire, best);
        for (who, answer) in [
            ("library", library::judge(&self.net, listing)),
            ("plain", plain::judge(&self.net, listing)),
            ("slow", slow::judge(&self.net, listing)),
        ] {
            if answer != expected {
                self.fault(report, &format!("{who}'s judge gives {answer:?}"));
            }
        }
        if let Some(programs) = programs {
            let printed = programs.judge(&self.net, listing)?;
            if printed != judge_text(expected) {
                let printed = printed.escape_ascii();
                self.fault(report, &format!("the program judge prints \"{printed}\""));
            }
        }
        Ok(())
    }

    fn compare_bytes(&self, report: &mut Report, what: &str, stored: &[u8], got: &[u8]) {
        if got == stored {
            return;
        }
        let same = got.iter().zip(stored).take_while(|(a, b)| a == b);
        let what = format!("{what} differs from byte {} on", same.count());
        self.fault(report, &what);
    }

    fn fault(&self, report: &mut Report, what: &str) {
        report.faults.push(format!("{}: {what}", self.name));
    }
}
