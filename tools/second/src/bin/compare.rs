//! compare [--seed S] [--count N] [--programs DIR] [--replay KIND:SEED]
//!
//! Compares the library with the references on seeded nets and texts, N rounds
//! over all kinds of case. Exits with 1 if anything disagrees.

use second_tool::kinds::ALL;
use second_tool::programs::{self, Programs};
use second_tool::random::Random;
use second_tool::session::Session;
use std::path::PathBuf;
use std::process::ExitCode;

const SEED: u64 = 20_090_401;
const ROUNDS: u64 = 1500;

struct Asked {
    seed: u64,
    rounds: u64,
    programs: Option<PathBuf>,
    replay: Option<(String, u64)>,
}

fn asked() -> Option<Asked> {
    let mut asked = Asked {
        seed: SEED,
        rounds: ROUNDS,
        programs: None,
        replay: None,
    };
    let mut words = std::env::args().skip(1);
    while let Some(word) = words.next() {
        let value = words.next()?;
        match word.as_str() {
            "--seed" => asked.seed = value.parse().ok()?,
            "--count" => asked.rounds = value.parse().ok()?,
            "--programs" => asked.programs = Some(PathBuf::from(value)),
            "--replay" => {
                let (kind, seed) = value.split_once(':')?;
                asked.replay = Some((kind.to_string(), seed.parse().ok()?));
            }
            _ => return None,
        }
    }
    Some(asked)
}

fn replay(
    s: &mut Session,
    name: &str,
    seed: u64,
    programs: Option<PathBuf>,
) -> std::io::Result<()> {
    if name.starts_with("program-") {
        return run_programs(s, programs, seed);
    }
    let kind = ALL
        .iter()
        .find(|k| k.name == name)
        .ok_or(std::io::ErrorKind::NotFound)?;
    s.start(kind.name, seed);
    (kind.run)(s, &mut Random::new(seed));
    Ok(())
}

/// Each kind has seeds of its own: one that is added leaves the others' cases as
/// they were.
fn rounds(s: &mut Session, seed: u64, rounds: u64) {
    let mut seeds: Vec<Random> = ALL.iter().map(|k| Random::named(seed, k.name)).collect();
    for round in 0..rounds {
        for (kind, seeds) in ALL.iter().zip(&mut seeds) {
            if round % kind.every == 0 {
                let seed = seeds.draw();
                s.start(kind.name, seed);
                (kind.run)(s, &mut Random::new(seed));
            }
        }
    }
}

fn run_programs(s: &mut Session, folder: Option<PathBuf>, seed: u64) -> std::io::Result<()> {
    let Some(folder) = folder else { return Ok(()) };
    programs::compare(s, &Programs::of(&folder)?, seed)
}

fn nothing_ran(s: &Session) -> bool {
    let total = s.total();
    total.calls() + total.runs + total.own() == 0
}

/// The last line says what was compared, each count of its own.
fn print_counts(s: &Session) {
    println!(
        "{:>16} {:>9} {:>9} {:>9} {:>9} {:>9} {:>9} {:>9} {:>9} {:>9}",
        "kind of case",
        "plans",
        "short",
        "weighted",
        "judged",
        "scores",
        "deleted",
        "runs",
        "own",
        "disagree"
    );
    for (kind, counts) in &s.counts {
        println!(
            "{kind:>16} {:>9} {:>9} {:>9} {:>9} {:>9} {:>9} {:>9} {:>9} {:>9}",
            counts.plans,
            counts.shorts,
            counts.weighted,
            counts.judgements,
            counts.scores,
            counts.deleted,
            counts.runs,
            counts.own(),
            counts.disagreements
        );
    }
    let calls = [
        "plan",
        "judge",
        "plan_short",
        "plan_weighted",
        "score",
        "delete_pin",
    ];
    for (call, numbers) in calls.iter().zip(&s.numbers) {
        let last = numbers.len() - 1;
        println!("{call} answers by number, 0 to {last}: {numbers:?}");
    }
    println!(
        "plans in which an edge above a branch point was split: {} of {}",
        s.split_above_branch_point, s.numbers[0][0]
    );
    println!(
        "plans with a pin just at the limit: {}, at an end of the range: {}",
        s.pin_at_limit, s.pin_at_end
    );
    let metals = &s.metals;
    println!(
        "plans with factors that differ: {}; of {} of these another tree by weighed nearness: {}, \
         by either factor in both directions: {}",
        metals.differing, metals.tried, metals.nearness, metals.both
    );
    println!(
        "pairs of a net and a multiple of it: {} planned, {} refused for their need, {} judged",
        s.pairs.planned, s.pairs.refused, s.pairs.judged
    );
    let shorts = &s.shorts;
    println!(
        "short trees held to the least spanning tree: {}, {} of them shorter; in {} an edge above a \
         branch point was split; {} by slow too; {} of nets whose need is out of reach",
        shorts.bounded,
        shorts.shorter,
        shorts.above_branch_point,
        shorts.slow,
        shorts.unreachable
    );
    let weighted = &s.weighted;
    println!(
        "third plans held to the sums of weight × delay of other trees: {}, {} of them below those \
         of both other plans; {} held to the least of all, found otherwise; in {} vertices tied; {} \
         of nets whose need is out of reach",
        weighted.bounded, weighted.lighter, weighted.least, weighted.tied, weighted.unreachable
    );
    println!(
        "pairs of nets alike but for weights: {}, {} of them with other third plans",
        weighted.pairs, weighted.differing
    );
    let scores = &s.scores;
    println!(
        "scores: {} given, {} of them by the cap, {} zero, {} of these by a weight of 0 on a \
         negative slack; {} refused by 14, {} of them for a low slack alone",
        scores.given, scores.capped, scores.zero, scores.of_negative, scores.refused, scores.low
    );
    let deletions = &s.deletions;
    println!(
        "deletions: {} given; in {} of them the branch point hung on the root, in {} the sibling was \
         a sink, in {} a branch point; {} refused by 15, {} by 16, {} by 6; {} nets went down to one \
         sink",
        deletions.given,
        deletions.on_root,
        deletions.beside_sink,
        deletions.beside_branch_point,
        deletions.no_sink,
        deletions.last_sink,
        deletions.too_short,
        deletions.chains
    );
    let total = s.total();
    println!(
        "measured by the tool itself: {} rival trees against the library's best; on {} nets \
         gathered numbers as defined, {} of vertices, {} of edges; {} of the plans made by \
         gathering too; {} spanning trees against the short tree; {} trees against the third \
         plan's sum of weight × delay",
        total.rivals,
        total.gathered,
        s.gathered.vertices,
        s.gathered.edges,
        s.gathered_plans,
        total.spanning,
        total.heavier
    );
    println!(
        "compared {} calls of the library ({} plans, {} short trees, {} third plans, {} judgements, \
         {} scores, {} deletions) and {} runs of the programs; {} disagreements",
        total.calls(),
        total.plans,
        total.shorts,
        total.weighted,
        total.judgements,
        total.scores,
        total.deleted,
        total.runs,
        total.disagreements
    );
}

fn main() -> ExitCode {
    let Some(asked) = asked() else {
        eprintln!("compare [--seed S] [--count N] [--programs DIR] [--replay KIND:SEED]");
        return ExitCode::from(2);
    };
    let mut s = Session::default();
    let ran = match asked.replay {
        Some((kind, seed)) => replay(&mut s, &kind, seed, asked.programs),
        None => {
            rounds(&mut s, asked.seed, asked.rounds);
            run_programs(&mut s, asked.programs, asked.seed)
        }
    };
    print_counts(&s);
    match ran {
        Err(error) => {
            eprintln!("compare: {error}");
            ExitCode::from(2)
        }
        Ok(()) if nothing_ran(&s) || s.total().disagreements > 0 => ExitCode::from(1),
        Ok(()) => ExitCode::SUCCESS,
    }
}
