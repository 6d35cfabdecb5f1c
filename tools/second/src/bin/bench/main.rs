//! bench [PART..]
//!
//! Times the library beside the plain implementation on the same inputs, both
//! built for release, and prints Markdown tables. Every figure that counts is a
//! ratio of two times of one run. The parts, all of them where none is named:
//!   plan      plans by shape and size of the net
//!   judge     judgements of those plans
//!   paths     judgements of one long path over the same nets
//!   million   a million different small nets
//!   short     short trees by shape and size of the net
//!   weighted  third plans by weights and size of the net
//!   score     scores of plans beside judgements of them
//!   delete    deletions of a pin beside judgements of the same plans
//!   compare   wire and slack of the short tree beside the first plan's

mod deletion;
mod plans;
mod score;
mod short;
mod table;
mod weighted;

use repeater_tree::{judge_figures, plan_figures, JudgeFigures, PlanFigures, LISTING_LENGTH};
use second_reference::net::Net;
use second_reference::{plain, slow};
use second_tool::random::Random;
use second_tool::ranges::NANOMETRES;
use second_tool::shapes::Make;
use second_tool::timing::{compare, median};
use second_tool::{metals, near, nets, trees};
use std::hint::black_box;
use std::process::ExitCode;
use std::time::{Duration, Instant};
use table::{Shape, Table, Times};

const SHAPES: [Shape; 11] = [
    ("common", nets::common),
    ("tied", nets::tied),
    ("falling", nets::falling),
    ("path, rising", nets::rising),
    ("spare", nets::spare),
    ("one spot", near::one_spot),
    ("path, deep", near::deep),
    ("near root", near::tree_near_root),
    ("path near root", near::path_near_root),
    ("two metals", metals::common),
    ("metals, spread", metals::spread_out),
];
/// Both sides of the least size of the arrays among them.
const SIZES: [usize; 8] = [1, 5, 12, 16, 17, 50, 200, 512];
/// Different nets of one shape and size.
const NETS: usize = 12;

const PARTS: [(&str, fn()); 9] = [
    ("plan", timed_plans),
    ("judge", judged_plans),
    ("paths", judged_paths),
    ("million", million),
    ("short", short::short_trees),
    ("weighted", weighted::third_plans),
    ("score", score::scored_plans),
    ("delete", deletion::deleted_pins),
    ("compare", plans::both_plans),
];

struct Case {
    net: Vec<u8>,
    listing: Vec<u8>,
}

/// Asserts that the net is accepted, since a refusal would be quick.
fn library_plan(net: &[u8], out: &mut [u8]) {
    let mut figures = PlanFigures::default();
    plan_figures(black_box(net), out, &mut figures);
    assert_eq!(black_box(&figures).number, 0);
}

fn plain_plan(net: &[u8], out: &mut [u8]) {
    let answer = plain::plan(black_box(net), out);
    assert_eq!(black_box(answer).number, 0);
}

fn library_judge(case: &Case) {
    let mut figures = JudgeFigures::default();
    judge_figures(black_box(&case.net), black_box(&case.listing), &mut figures);
    assert_eq!(black_box(&figures).number, 0);
}

fn plain_judge(case: &Case) {
    let answer = plain::judge(black_box(&case.net), black_box(&case.listing));
    assert_eq!(black_box(answer).number, 0);
}

fn planned(net: &Net) -> Vec<u8> {
    let mut out = vec![0; LISTING_LENGTH];
    let bytes = plain::plan(&net.text(), &mut out).last as usize;
    out.truncate(bytes);
    out
}

/// The deepest tree over the net.
fn one_path(net: &Net) -> Vec<u8> {
    let parents = trees::path_parents(net.sinks.len());
    slow::listing_of(net, trees::at_root(net, parents)).text()
}

fn cases(make: Make, n: usize, listing: fn(&Net) -> Vec<u8>) -> Vec<Case> {
    let mut r = Random::new(n as u64);
    let nets = (0..NETS).map(|_| make(&mut r, &NANOMETRES, n));
    nets.map(|net| Case {
        listing: listing(&net),
        net: net.text(),
    })
    .collect()
}

fn time_plans(make: Make, n: usize) -> Times {
    let mut one = vec![0; LISTING_LENGTH];
    let mut two = vec![0; LISTING_LENGTH];
    let [library, plain] = compare(
        &cases(make, n, planned),
        &mut [
            &mut |case: &Case| library_plan(&case.net, &mut one),
            &mut |case: &Case| plain_plan(&case.net, &mut two),
        ],
    );
    Times {
        library,
        plain,
        plainest: plain,
        other: library,
    }
}

fn time_judgements(make: Make, n: usize, listing: fn(&Net) -> Vec<u8>) -> Times {
    let mut out = vec![0; LISTING_LENGTH];
    let [library, plain, plan] = compare(
        &cases(make, n, listing),
        &mut [&mut library_judge, &mut plain_judge, &mut |case: &Case| {
            library_plan(&case.net, &mut out)
        }],
    );
    Times {
        library,
        plain,
        plainest: plain,
        other: plan,
    }
}

fn timed_table(time: impl Fn(Make, usize) -> Times) -> Table {
    Table::timed(&SHAPES, &SIZES, time)
}

fn timed_plans() {
    let table = timed_table(time_plans);
    table.print(
        "plan: microseconds, library / plain = ratio",
        Times::beside_plain,
    );
    table.print_largest("plan over plain", Times::over_plain);
    table.print_growth();
}

fn judged_plans() {
    print_judgements("judge of plans", planned);
}

fn judged_paths() {
    print_judgements("judge of paths", one_path);
}

fn print_judgements(name: &str, listing: fn(&Net) -> Vec<u8>) {
    let table = timed_table(|make, n| time_judgements(make, n, listing));
    table.print(
        &format!("{name}: microseconds, library / plain = ratio"),
        Times::beside_plain,
    );
    table.print(
        &format!("{name}: its time over that of plan on the same net"),
        |times| format!("{:.2}", times.over_other()),
    );
    table.print_largest(&format!("{name} over plain"), Times::over_plain);
    table.print_largest(&format!("{name} over plan"), Times::over_other);
    table.print_growth();
}

fn timed(nets: &[Vec<u8>], out: &mut [u8], plan: fn(&[u8], &mut [u8])) -> Duration {
    let start = Instant::now();
    for net in nets {
        plan(net, out);
    }
    start.elapsed()
}

/// Different nets, every other with factors that differ, made in chunks outside
/// the timed stretches. The median chunk tells the rate of a machine that does
/// nothing else.
fn million() {
    const CHUNK: usize = 500;
    let mut r = Random::new(12);
    let mut out = vec![0; LISTING_LENGTH];
    let (mut library, mut plain) = (Vec::new(), Vec::new());
    for _ in 0..1_000_000 / CHUNK {
        let nets: Vec<Vec<u8>> = (0..CHUNK)
            .map(|i| [nets::common, metals::common][i % 2](&mut r, &NANOMETRES, 12).text())
            .collect();
        library.push(timed(&nets, &mut out, library_plan).as_secs_f64());
        plain.push(timed(&nets, &mut out, plain_plan).as_secs_f64());
    }
    println!("\na million different nets of 12 sinks, plans per second:");
    let all = |times: &[f64]| 1_000_000.0 / times.iter().sum::<f64>();
    let (one, two) = (all(&library), all(&plain));
    println!(
        "over all     library {one:.0}, plain {two:.0}, ratio {:.2}",
        one / two
    );
    let (one, two) = (median(library), median(plain));
    let rate = |time: f64| CHUNK as f64 / time;
    println!(
        "median chunk library {:.0}, plain {:.0}, ratio {:.2}",
        rate(one),
        rate(two),
        two / one
    );
}

fn main() -> ExitCode {
    let asked: Vec<String> = std::env::args().skip(1).collect();
    let known = |word: &String| PARTS.iter().any(|(name, _)| name == word);
    if !asked.iter().all(known) {
        eprintln!(
            "bench [PART..], each one of {:?}",
            PARTS.map(|(name, _)| name)
        );
        return ExitCode::from(2);
    }
    for (name, part) in PARTS {
        if asked.is_empty() || asked.iter().any(|word| word == name) {
            part();
        }
    }
    ExitCode::SUCCESS
}
