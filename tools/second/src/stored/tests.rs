//! A folder of a few stored nets, then spoilt in each way.

use super::{check, drawn, has_short, has_weighted, path, set, write, Report, LEAST_NETS};
use super::{NET, SHORT, TREE, WEIGHTED};
use std::fs;
use std::path::{Path, PathBuf};

/// Removed when the test ends.
struct Folder(PathBuf);

impl Drop for Folder {
    fn drop(&mut self) {
        let _ = fs::remove_dir_all(&self.0);
    }
}

const NAME: &str = "near-root-3";
const NETS: usize = 3;
/// How many short trees and third plans are stored.
const SHORT_TREES: usize = 162;
const THIRD_PLANS: usize = 162;
const ALL: [&str; 4] = [NET, TREE, SHORT, WEIGHTED];

fn named(names: &[&str]) -> Vec<(String, Vec<u8>)> {
    let mut nets = drawn();
    nets.retain(|(name, _)| names.contains(&name.as_str()));
    nets
}

fn few() -> Vec<(String, Vec<u8>)> {
    named(&[NAME, "tied-2", "tree-near-root-3"])
}

/// Named after its test, so that tests do not meet.
fn folder_of(test: &str, nets: &[(String, Vec<u8>)]) -> Folder {
    let name = format!("repeater_tree_{test}_{}", std::process::id());
    let folder = Folder(std::env::temp_dir().join(name));
    fs::create_dir_all(&folder.0).unwrap();
    assert_eq!(write(&folder.0, nets, None).unwrap().nets, nets.len());
    folder
}

fn stored(test: &str) -> Folder {
    folder_of(test, &few())
}

impl Folder {
    fn check(&self) -> Report {
        check(&self.0, NETS, None).unwrap()
    }

    fn file(&self, extension: &str) -> PathBuf {
        path(&self.0, NAME, extension)
    }
}

#[test]
fn the_set_has_its_least_number() {
    assert_eq!(drawn().len(), LEAST_NETS);
}

/// The files are those that the seed draws, byte for byte.
#[test]
fn the_set_is_what_is_stored() {
    let folder = Path::new(concat!(env!("CARGO_MANIFEST_DIR"), "/../stored"));
    for (name, net) in drawn() {
        let file = path(folder, &name, NET);
        assert!(fs::read(&file).unwrap() == net, "{name}");
    }
}

/// The original's net with its listings, so that all planners' and judges'
/// words are right and the law alone is broken; then no original at all.
#[test]
fn an_image_of_another_net_is_told() {
    let (name, original) = ("marked-a-times-1000-3", "marked-a-3");
    let folder = folder_of("image", &named(&[name, original]));
    let report = check(&folder.0, 2, None).unwrap();
    assert_eq!((report.images, report.faults.len()), (1, 0));
    for extension in ALL {
        let [from, to] = [original, name].map(|name| path(&folder.0, name, extension));
        fs::copy(from, to).unwrap();
    }
    let told = |what: &str| format!("{name}: its {what} is not 1000 times {original}'s");
    let faults = check(&folder.0, 2, None).unwrap().faults;
    let all = ["net", "listing", "short tree", "third plan"];
    assert_eq!(faults, all.map(told));
    for extension in ALL {
        fs::remove_file(path(&folder.0, original, extension)).unwrap();
    }
    let faults = check(&folder.0, 1, None).unwrap().faults;
    assert_eq!(faults, [format!("{name}: {original} is not there")]);
}

#[test]
fn what_was_written_agrees() {
    let report = stored("agrees").check();
    assert!(report.faults.is_empty(), "{:?}", report.faults);
    assert_eq!((report.nets, report.sinks, report.slow), (NETS, 8, NETS));
    assert_eq!((report.shorts, report.slow_shorts), (NETS, NETS));
    assert_eq!(report.weighted, NETS);
}

/// Each byte in turn: every planner differs there.
fn told_at_each_byte(test: &str, extension: &str, what: &str, planners: &[&str]) {
    let folder = stored(test);
    let good = fs::read(folder.file(extension)).unwrap();
    for at in 0..good.len() {
        let mut bad = good.clone();
        bad[at] ^= 1;
        fs::write(folder.file(extension), bad).unwrap();
        let faults = folder.check().faults;
        for who in planners {
            let told = format!("{NAME}: {who}'s {what} differs from byte {at} on");
            assert!(faults.contains(&told), "{told} is not in {faults:?}");
        }
    }
}

#[test]
fn a_changed_byte_is_told() {
    let planners = ["library", "plain", "gathered", "slow"];
    told_at_each_byte("byte", TREE, "listing", &planners);
}

#[test]
fn a_changed_byte_of_a_short_tree_is_told() {
    let planners = ["library", "plain", "slow"];
    told_at_each_byte("short_byte", SHORT, "short tree", &planners);
}

#[test]
fn a_changed_byte_of_a_third_plan_is_told() {
    let planners = ["library", "plain", "slow"];
    told_at_each_byte("weighted_byte", WEIGHTED, "third plan", &planners);
}

#[test]
fn a_cut_listing_is_told() {
    let folder = stored("cut");
    let good = fs::read(folder.file(TREE)).unwrap();
    for bad in [&good[..good.len() - 1], &[&good[..], b"\n"].concat()] {
        fs::write(folder.file(TREE), bad).unwrap();
        let at = bad.len().min(good.len());
        let told = format!("{NAME}: library's listing differs from byte {at} on");
        assert!(folder.check().faults.contains(&told));
    }
}

#[test]
fn a_missing_file_is_told() {
    for (extension, told) in [
        (TREE, "no listing"),
        (SHORT, "no short tree"),
        (WEIGHTED, "no third plan"),
        (NET, "no net"),
    ] {
        let folder = stored(extension);
        fs::remove_file(folder.file(extension)).unwrap();
        let faults = folder.check().faults;
        assert!(faults.contains(&format!("{NAME}: {told}")));
    }
}

#[test]
fn too_few_nets_are_told() {
    let folder = stored("few");
    for extension in ALL {
        fs::remove_file(folder.file(extension)).unwrap();
    }
    assert_eq!(folder.check().faults, ["2 nets, at least 3 are due"]);
}

#[test]
fn what_is_stored_is_kept() {
    let folder = stored("kept");
    fs::write(folder.file(TREE), "x").unwrap();
    fs::remove_file(folder.file(NET)).unwrap();
    let report = write(&folder.0, &few(), None).unwrap();
    assert_eq!((report.nets, report.faults.len()), (0, 0));
    assert_eq!(fs::read(folder.file(TREE)).unwrap(), b"x");
    assert!(!folder.file(NET).exists());
}

/// A short tree or a third plan is added to what is stored, and then kept too.
#[test]
fn a_further_plan_is_added() {
    for extension in [SHORT, WEIGHTED] {
        let folder = stored(&format!("added_{extension}"));
        let good = fs::read(folder.file(extension)).unwrap();
        fs::remove_file(folder.file(extension)).unwrap();
        for (nets, then) in [(1, &good[..]), (0, b"x")] {
            assert_eq!(write(&folder.0, &few(), None).unwrap().nets, nets);
            assert!(fs::read(folder.file(extension)).unwrap() == good);
            fs::write(folder.file(extension), then).unwrap();
        }
        assert_eq!(write(&folder.0, &few(), None).unwrap().nets, 0);
        assert_eq!(fs::read(folder.file(extension)).unwrap(), b"x");
    }
}

/// A first plan is not.
#[test]
fn a_first_plan_is_not_added() {
    let folder = stored("first");
    fs::remove_file(folder.file(TREE)).unwrap();
    assert_eq!(write(&folder.0, &few(), None).unwrap().nets, 0);
    assert!(!folder.file(TREE).exists());
}

/// Net A's need is reached, so its planners do not refuse it.
#[test]
fn a_need_within_reach_is_told() {
    let name = "marked-a-unreachable-3";
    let folder = folder_of("reach", &named(&[name]));
    let report = check(&folder.0, 1, None).unwrap();
    let found = (report.unreachable, report.shorts, report.weighted);
    assert_eq!((found, report.faults.len()), ((1, 1, 1), 0));
    let file = path(&folder.0, name, NET);
    let net = fs::read_to_string(&file).unwrap();
    fs::write(&file, net.replace("need=1", "need=0")).unwrap();
    let faults = check(&folder.0, 1, None).unwrap().faults;
    assert_eq!(faults.len(), 4, "{faults:?}");
    for (fault, who) in faults.iter().zip(["library", "plain", "gathered", "slow"]) {
        assert!(fault.starts_with(&format!("{name}: {who} gives Answer")));
    }
    fs::write(path(&folder.0, name, TREE), "x").unwrap();
    let told = format!("{name}: a listing that is not due");
    assert!(check(&folder.0, 1, None).unwrap().faults.contains(&told));
}

/// Every net up to some size has its short tree and its third plan, and those
/// that are named.
#[test]
fn further_plans_are_due() {
    let all: Vec<String> = drawn().into_iter().map(|(name, _)| name).collect();
    for name in set::LARGE_SHORT.iter().chain(&set::LARGE_WEIGHTED) {
        assert!(all.iter().any(|n| n == name), "{name}");
    }
    let due = |has: fn(&str) -> bool| all.iter().filter(|name| has(name)).count();
    assert_eq!(
        (due(has_short), due(has_weighted), all.len()),
        (SHORT_TREES, THIRD_PLANS, LEAST_NETS)
    );
}
