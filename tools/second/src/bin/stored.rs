//! stored [--programs DIR] [--write] [--folder DIR]
//!
//! Plans and judges every stored net by the library, the references and, with
//! `--programs`, the programs, and compares each listing with the stored one
//! byte for byte. With `--write` it first stores what is not stored yet, if all
//! agree on it. Exits with 1 on any difference.

use second_tool::programs::Programs;
use second_tool::stored::{check, drawn, write, Report, LEAST_NETS};
use std::path::PathBuf;
use std::process::ExitCode;

const FOLDER: &str = concat!(env!("CARGO_MANIFEST_DIR"), "/../stored");

struct Asked {
    programs: Option<PathBuf>,
    write: bool,
    folder: PathBuf,
}

/// Nothing is written without the programs' word.
fn asked() -> Option<Asked> {
    let mut asked = Asked {
        programs: None,
        write: false,
        folder: PathBuf::from(FOLDER),
    };
    let mut words = std::env::args().skip(1);
    while let Some(word) = words.next() {
        match word.as_str() {
            "--programs" => asked.programs = Some(PathBuf::from(words.next()?)),
            "--write" => asked.write = true,
            "--folder" => asked.folder = PathBuf::from(words.next()?),
            _ => return None,
        }
    }
    (asked.programs.is_some() || !asked.write).then_some(asked)
}

fn run(asked: &Asked) -> std::io::Result<Report> {
    let programs = match &asked.programs {
        Some(folder) => Some(Programs::of(folder)?),
        None => None,
    };
    let mut faults = Vec::new();
    if asked.write {
        std::fs::create_dir_all(&asked.folder)?;
        faults = write(&asked.folder, &drawn(), programs.as_ref())?.faults;
    }
    let mut report = check(&asked.folder, LEAST_NETS, programs.as_ref())?;
    report.faults.extend(faults);
    Ok(report)
}

fn main() -> ExitCode {
    let Some(asked) = asked() else {
        eprintln!("stored [--programs DIR] [--write] [--folder DIR]; --write needs --programs");
        return ExitCode::from(2);
    };
    let report = match run(&asked) {
        Ok(report) => report,
        Err(error) => {
            eprintln!("stored: {error} (nets in {})", asked.folder.display());
            return ExitCode::from(2);
        }
    };
    for fault in &report.faults {
        println!("DIFFERENT {fault}");
    }
    let programs = match asked.programs {
        Some(_) => " and programs",
        None => "",
    };
    println!(
        "stored nets: {} with {} sinks by library, plain, gathered{programs}, {} by slow too; {} are \
         multiples of others, {} ask for too much; {} short trees by library, plain{programs}, {} by \
         slow too; {} third plans by library, plain, slow{programs}; {} differences",
        report.nets,
        report.sinks,
        report.slow,
        report.images,
        report.unreachable,
        report.shorts,
        report.slow_shorts,
        report.weighted,
        report.faults.len()
    );
    match report.faults.len() {
        0 => ExitCode::SUCCESS,
        _ => ExitCode::from(1),
    }
}
