//! Wrong programs, and wrong expectations, are told.

use super::streams::is_cut;
use super::*;
use std::fs;
use std::os::unix::fs::PermissionsExt;
use std::path::PathBuf;

const STORED: &str = concat!(env!("CARGO_MANIFEST_DIR"), "/../stored");

/// A folder in which every program is this shell script.
fn scripts(name: &str, script: &str) -> PathBuf {
    let name = format!("repeater_tree_{name}_{}", std::process::id());
    let folder = std::env::temp_dir().join(name);
    fs::create_dir_all(&folder).unwrap();
    for program in ["plan", "plan_short", "plan_weighted", "judge"] {
        let file = folder.join(program);
        fs::write(&file, format!("#!/bin/sh\n{script}\n")).unwrap();
        fs::set_permissions(&file, fs::Permissions::from_mode(0o755)).unwrap();
    }
    folder
}

/// The names of what was told of such programs.
fn told(name: &str, script: &str) -> Vec<String> {
    let folder = scripts(name, script);
    let programs = Programs::of(&folder).unwrap();
    let report = check(&programs, Path::new(STORED), None).unwrap();
    fs::remove_dir_all(folder).unwrap();
    let name = |fault: &String| fault.split(':').next().unwrap().to_string();
    report.faults.iter().map(name).collect()
}

#[test]
fn silent_programs_fail_everywhere() {
    let faults = told("silent", "cat > /dev/null");
    let streams = PLANNERS.len() * streams::all().len();
    assert_eq!(faults.len(), cases::all().len() + streams);
}

#[test]
fn a_refusal_without_words_is_told() {
    let faults = told("wordless", "cat > /dev/null; echo refused=5,1,4");
    assert!(faults.contains(&"plan A with need=1".to_string()));
}

/// The first plan's answer is not the others': A's listings differ, and a need
/// out of reach is no refusal there.
#[test]
fn one_program_for_the_other_is_told() {
    let listing = cases::LISTING.escape_default().to_string();
    let faults = told("other", &format!("cat > /dev/null; printf '{listing}'"));
    assert!(!faults.contains(&"plan A".to_string()));
    for program in ["plan_short", "plan_weighted"] {
        for name in ["A", "A with need=1"] {
            let name = format!("{program} {name}");
            assert!(faults.contains(&name), "{name} is not in {faults:?}");
        }
    }
}

#[test]
fn each_stream_counts() {
    let said = Said::of("slack=0\n", "");
    assert_eq!(same(&said, &said), Ok(()));
    assert!(same(&said, &Said::of("slack=0", "")).is_err());
    assert!(same(&said, &Said::of("slack=0\n", "told\n")).is_err());
}

#[test]
fn a_cut_is_the_front_of_the_answer() {
    let err = "standard output: the answer was cut short\n";
    let answer = b"slack=0\n";
    assert_eq!(is_cut(&Said::of("sla", err), answer), Ok(()));
    assert!(is_cut(&Said::of("", err), answer).is_err());
    assert!(is_cut(&Said::of("slack=0\n", err), answer).is_err());
    assert!(is_cut(&Said::of("ref", err), answer).is_err());
    assert!(is_cut(&Said::of("sla", ""), answer).is_err());
}
