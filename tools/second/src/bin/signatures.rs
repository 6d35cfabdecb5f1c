//! signatures [ROOT]
//!
//! Compares the functions, the limits, the version and the refusals' words of
//! the C header and of the Rust wrapper with the Rattle source of the repository
//! at ROOT, and the places where that source takes a length's number with the
//! list of them. Exits with 1 on any difference.

use second_tool::signatures::{compare, Sources};
use std::path::PathBuf;
use std::process::ExitCode;

const ROOT: &str = concat!(env!("CARGO_MANIFEST_DIR"), "/../..");

fn main() -> ExitCode {
    let root = PathBuf::from(std::env::args_os().nth(1).unwrap_or(ROOT.into()));
    let sources = match Sources::read(&root) {
        Ok(sources) => sources,
        Err(error) => {
            eprintln!("signatures: {error} (sources under {})", root.display());
            return ExitCode::from(2);
        }
    };
    let report = compare(&sources);
    for difference in &report.differences {
        println!("DIFFERENT {difference}");
    }
    println!(
        "signatures: {} functions, {} limits, {} wordings, version {}, {} places with a length's number; {} differences",
        report.functions,
        report.limits,
        report.wordings,
        report.version,
        report.places,
        report.differences.len()
    );
    match report.differences.len() {
        0 => ExitCode::SUCCESS,
        _ => ExitCode::from(1),
    }
}
