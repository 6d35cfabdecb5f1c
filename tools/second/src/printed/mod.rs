//! What the programs print, on standard output and on standard error, byte for
//! byte; and what they say where a stream fails, ends early or comes in pieces.

mod cases;
mod reads;
mod run;
mod streams;
mod system;
#[cfg(test)]
mod tests;

use crate::programs::Programs;
use cases::PLANNERS;
use std::io::Result;
use std::path::Path;

/// What a program printed.
#[derive(Clone, Debug, Default, PartialEq, Eq)]
pub struct Said {
    pub out: Vec<u8>,
    pub err: Vec<u8>,
}

impl Said {
    fn of(out: &str, err: &str) -> Said {
        Said {
            out: out.into(),
            err: err.into(),
        }
    }
}

#[derive(Default)]
pub struct Report {
    pub texts: usize,
    pub streams: usize,
    pub reads: usize,
    pub faults: Vec<String>,
}

/// `stored` has the nets with their listings, `reads` is the object of
/// `reads.c`; without it no read is interrupted.
pub fn check(programs: &Programs, stored: &Path, reads: Option<&Path>) -> Result<Report> {
    let mut report = Report::default();
    for case in cases::all() {
        report.texts += 1;
        let said = case.run(programs)?;
        report.compare(&case.name, &said, &case.expected);
    }
    for by in &PLANNERS {
        for (name, stream) in streams::all() {
            report.streams += 1;
            if let Err(fault) = stream(programs, by, stored)? {
                let program = by.program;
                report.faults.push(format!("{program}, {name}: {fault}"));
            }
        }
        if let Some(object) = reads {
            for reads in reads::all(by) {
                report.reads += 1;
                let said = reads.run(programs, object)?;
                report.compare(&reads.name, &said, &reads.expected);
            }
        }
    }
    Ok(report)
}

impl Report {
    fn compare(&mut self, name: &str, said: &Said, expected: &Said) {
        if let Err(fault) = same(said, expected) {
            self.faults.push(format!("{name}: {fault}"));
        }
    }
}

/// Both streams byte for byte.
fn same(said: &Said, expected: &Said) -> std::result::Result<(), String> {
    let text = |bytes: &[u8]| String::from_utf8_lossy(&bytes[..bytes.len().min(200)]).into_owned();
    for (stream, found, due) in [
        ("standard output", &said.out, &expected.out),
        ("standard error", &said.err, &expected.err),
    ] {
        if found != due {
            return Err(format!(
                "{stream} is {:?}, {:?} is due",
                text(found),
                text(due)
            ));
        }
    }
    Ok(())
}
