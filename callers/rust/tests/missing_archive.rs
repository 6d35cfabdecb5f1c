//! Without the archive the build says what to run.

use std::path::Path;
use std::process::Command;

#[test]
fn the_build_says_what_to_run() {
    let folder = Path::new(env!("CARGO_TARGET_TMPDIR"));
    let built = Command::new(env!("CARGO"))
        .args(["check", "--offline", "--manifest-path"])
        .arg(concat!(env!("CARGO_MANIFEST_DIR"), "/Cargo.toml"))
        .env("CARGO_TARGET_DIR", folder.join("target"))
        .env("REPEATER_TREE_LIB_DIR", folder.join("empty"))
        .output()
        .unwrap();
    assert!(!built.status.success());
    let told = String::from_utf8_lossy(&built.stderr);
    assert!(told.contains("`tools/build`"), "{told}");
}
