//! Reads that a signal interrupts, or that fail, by the object of `reads.c`
//! before the C library's.

use super::cases::{Planner, A};
use super::{run, Said};
use crate::programs::Programs;
use std::io::{Result, Write};
use std::path::Path;
use std::process::Stdio;

/// So many interruptions end the reading of a text.
const MOST: usize = 1_000;

pub struct Reads {
    pub name: String,
    program: &'static str,
    letters: String,
    pub expected: Said,
}

pub fn all(by: &Planner) -> [Reads; 5] {
    let reads = |name: &str, letters: String, out: &str, err: &str| Reads {
        name: format!("{}, {name}", by.program),
        program: by.program,
        letters,
        expected: Said::of(out, err),
    };
    let interrupted = "standard input: Interrupted system call\n";
    let failed = "standard input: Input/output error\n";
    [
        reads(
            "every other read interrupted",
            "i1".repeat(40),
            by.listing,
            "",
        ),
        reads(
            "reads interrupted often",
            "i".repeat(MOST - 1),
            by.listing,
            "",
        ),
        reads(
            "reads interrupted too often",
            "i".repeat(MOST),
            "",
            interrupted,
        ),
        reads("a first read that fails", "f".into(), "", failed),
        reads("a later read that fails", "111f".into(), "", failed),
    ]
}

impl Reads {
    pub fn run(&self, programs: &Programs, object: &Path) -> Result<Said> {
        let mut child = programs
            .command(self.program)
            .env("LD_PRELOAD", object)
            .env("READS", &self.letters)
            .stdin(Stdio::piped())
            .spawn()?;
        // One that fails reads no further: a broken pipe is no fault.
        let _ = child.stdin.take().expect("piped").write_all(A.as_bytes());
        run::finish(child)
    }
}
