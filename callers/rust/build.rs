//! Links the planner's archive: from REPEATER_TREE_LIB_DIR, else from the
//! repository's own build.

use std::env;
use std::path::{Path, PathBuf};
use std::process::exit;

fn main() {
    println!("cargo:rerun-if-env-changed=REPEATER_TREE_LIB_DIR");
    let folder = folder();
    let archive = folder.join("librepeater_tree.a");
    println!("cargo:rerun-if-changed={}", archive.display());
    if !archive.is_file() {
        missing(&archive);
    }
    println!("cargo:rustc-link-search=native={}", folder.display());
    println!("cargo:rustc-link-lib=static=repeater_tree");
}

fn folder() -> PathBuf {
    match env::var_os("REPEATER_TREE_LIB_DIR") {
        Some(folder) => PathBuf::from(folder),
        None => PathBuf::from(env::var_os("CARGO_MANIFEST_DIR").expect("set by cargo"))
            .join("../../target/staticlib"),
    }
}

/// The linker's own words would not say where the archive comes from.
fn missing(archive: &Path) -> ! {
    eprintln!("the planner's archive is missing: {}", archive.display());
    eprintln!("run `tools/build` at the repository's root,");
    eprintln!("or set REPEATER_TREE_LIB_DIR to the folder that has librepeater_tree.a");
    exit(1)
}
