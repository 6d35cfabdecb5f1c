//! The programs: what they print against what the reference says.

use crate::damage;
use crate::nets;
use crate::planners::{self, Planner};
use crate::random::Random;
use crate::session::Session;
use repeater_tree::{LISTING_LENGTH, NET_LENGTH};
use second_reference::answer::Answer;
use second_reference::plain;
use std::io::{Result, Write};
use std::path::{Path, PathBuf};
use std::process::{Command, Stdio};
use std::sync::atomic::{AtomicUsize, Ordering};

/// The programs that plan.
pub const PLAN: &str = "plan";
pub const PLAN_SHORT: &str = "plan_short";
pub const PLAN_WEIGHTED: &str = "plan_weighted";

const CASES: u64 = 60;

/// How many folders to work in there have been.
static PLACES: AtomicUsize = AtomicUsize::new(0);

/// The folder of the programs, and one to work in for as long as this lives.
pub struct Programs {
    folder: PathBuf,
    work: PathBuf,
}

impl Programs {
    pub fn of(folder: &Path) -> Result<Programs> {
        let place = PLACES.fetch_add(1, Ordering::Relaxed);
        let name = format!("repeater_tree_programs_{}_{place}", std::process::id());
        let programs = Programs {
            folder: folder.canonicalize()?,
            work: std::env::temp_dir().join(name),
        };
        std::fs::create_dir_all(&programs.work)?;
        Ok(programs)
    }

    /// A program, run in the folder to work in; what it prints is kept.
    pub fn command(&self, name: &str) -> Command {
        let mut command = Command::new(self.folder.join(name));
        command
            .current_dir(&self.work)
            .stdout(Stdio::piped())
            .stderr(Stdio::piped());
        command
    }

    pub fn work(&self) -> &Path {
        &self.work
    }

    /// What a program that plans prints.
    pub fn plan(&self, program: &str, net: &[u8]) -> Result<Vec<u8>> {
        let mut child = self.command(program).stdin(Stdio::piped()).spawn()?;
        let mut input = child.stdin.take().expect("piped");
        // In two pieces, as a pipe may deliver it. A program may stop reading
        // at the length limit, so a broken pipe is no fault.
        let (front, back) = net.split_at(net.len() / 2);
        let _ = input
            .write_all(front)
            .and_then(|()| input.flush())
            .and_then(|()| input.write_all(back));
        drop(input);
        Ok(child.wait_with_output()?.stdout)
    }

    /// What `judge` prints.
    pub fn judge(&self, net: &[u8], listing: &[u8]) -> Result<Vec<u8>> {
        std::fs::write(self.work.join("net.txt"), net)?;
        std::fs::write(self.work.join("tree.txt"), listing)?;
        Ok(self.command("judge").output()?.stdout)
    }
}

impl Drop for Programs {
    fn drop(&mut self) {
        let _ = std::fs::remove_dir_all(&self.work);
    }
}

pub fn compare(s: &mut Session, programs: &Programs, seed: u64) -> Result<()> {
    for i in 0..CASES {
        let mut r = Random::new(seed.wrapping_add(i));
        let (net, listing) = texts(&mut r, i);
        for (kind, program, planner) in [
            ("program-plan", PLAN, planners::PLAIN),
            ("program-short", PLAN_SHORT, planners::SHORT_PLAIN),
            ("program-weighted", PLAN_WEIGHTED, planners::WEIGHTED_PLAIN),
        ] {
            s.start(kind, seed);
            s.count().runs += 1;
            let printed = programs.plan(program, &net)?;
            let expected = plan_text(planner, &net);
            report(s, &printed, &expected, &[("net", &net)]);
        }
        s.start("program-judge", seed);
        s.count().runs += 1;
        let printed = programs.judge(&net, &listing)?;
        let expected = judge_text(plain::judge(&net, &listing));
        report(
            s,
            &printed,
            &expected,
            &[("net", &net), ("listing", &listing)],
        );
    }
    Ok(())
}

/// Good texts, reachable or not, each kind of damage and a far pin in turn.
fn texts(r: &mut Random, i: u64) -> (Vec<u8>, Vec<u8>) {
    let n = if i == 0 {
        512
    } else {
        r.between(1, 30) as usize
    };
    let mut good = nets::any(r, n);
    let mut out = vec![0; LISTING_LENGTH];
    let bytes = plain::plan(&good.text(), &mut out).last as usize;
    out.truncate(bytes);
    if i % 7 == 6 {
        good.need = r.between(-1_000_000_000, 1_000_000_000);
    }
    let net = good.text();
    match i % 5 {
        1 => (damage::any(r, &net), out),
        2 => (net, damage::any(r, &out)),
        3 => {
            let over = r.pick(&[0, 1]);
            let long = damage::of_length(r, &net, NET_LENGTH + over).swap_remove(0);
            (
                long,
                damage::of_length(r, &out, LISTING_LENGTH + over).swap_remove(1),
            )
        }
        0 if i % 2 == 1 => (nets::with_far_pin(r, good).0.text(), out),
        4 if i % 2 == 0 => {
            let long = damage::of_length(r, &out, LISTING_LENGTH + 1).swap_remove(0);
            (net, long)
        }
        _ => (net, out),
    }
}

pub fn refused(a: Answer) -> Vec<u8> {
    format!("refused={},{},{}\n", a.number, a.text, a.line).into_bytes()
}

/// What a program must print where this planner is right.
fn plan_text(by: Planner, net: &[u8]) -> Vec<u8> {
    let mut out = vec![0; LISTING_LENGTH];
    let answer = by.1(net, &mut out);
    out.truncate(answer.last as usize);
    if answer.number == 0 {
        out
    } else {
        refused(answer)
    }
}

/// What `judge` must print for this answer.
pub fn judge_text(a: Answer) -> Vec<u8> {
    match a.number {
        0 => format!("slack={}\nwire={}\nbest={}\n", a.slack, a.wire, a.last).into_bytes(),
        _ => refused(a),
    }
}

fn report(s: &mut Session, printed: &[u8], expected: &[u8], texts: &[(&str, &[u8])]) {
    if printed == expected {
        return;
    }
    let mut texts = texts.to_vec();
    texts.push(("printed", printed));
    texts.push(("expected", expected));
    s.disagree("the program prints otherwise", &texts);
}
