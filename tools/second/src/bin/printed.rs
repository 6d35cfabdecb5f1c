//! printed --programs DIR [--reads FILE]
//!
//! Runs the planning programs in DIR and `DIR/judge` and compares what they print
//! on standard output and on standard error, byte for byte, also where a stream
//! fails or comes in pieces; with FILE, the object of `reads.c`, also where a read is
//! interrupted. Exits with 1 on any difference.

use second_tool::printed::{check, Report};
use second_tool::programs::Programs;
use std::path::{Path, PathBuf};
use std::process::ExitCode;

const STORED: &str = concat!(env!("CARGO_MANIFEST_DIR"), "/../stored");

struct Asked {
    programs: PathBuf,
    reads: Option<PathBuf>,
}

fn asked() -> Option<Asked> {
    let (mut programs, mut reads) = (None, None);
    let mut words = std::env::args().skip(1);
    while let Some(word) = words.next() {
        match word.as_str() {
            "--programs" => programs = Some(PathBuf::from(words.next()?)),
            "--reads" => reads = Some(PathBuf::from(words.next()?)),
            _ => return None,
        }
    }
    Some(Asked {
        programs: programs?,
        reads,
    })
}

fn run(asked: &Asked) -> std::io::Result<Report> {
    let programs = Programs::of(&asked.programs)?;
    let reads = match &asked.reads {
        Some(file) => Some(file.canonicalize()?),
        None => None,
    };
    check(&programs, Path::new(STORED), reads.as_deref())
}

fn main() -> ExitCode {
    let Some(asked) = asked() else {
        eprintln!("printed --programs DIR [--reads FILE]");
        return ExitCode::from(2);
    };
    let report = match run(&asked) {
        Ok(report) => report,
        Err(error) => {
            let folder = asked.programs.display();
            eprintln!("printed: {error} (programs in {folder})");
            return ExitCode::from(2);
        }
    };
    for fault in &report.faults {
        println!("DIFFERENT {fault}");
    }
    println!(
        "printed: {} texts, {} streams, {} with reads that fail; {} differences",
        report.texts,
        report.streams,
        report.reads,
        report.faults.len()
    );
    match report.faults.len() {
        0 => ExitCode::SUCCESS,
        _ => ExitCode::from(1),
    }
}
