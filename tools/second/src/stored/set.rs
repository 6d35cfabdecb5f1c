//! The nets of the stored set.

use crate::metals;
use crate::nets;
use crate::random::Random;
use crate::ranges::{Ranges, MICROMETRES, NANOMETRES};
use crate::scaled;
use crate::shapes::{MARKED, METALS, RANGE_END, SHAPES, SHORT, WEIGHTED};
use crate::streets::STREETS;
use crate::weights::{self, WEIGHTS};
use second_reference::kraft;
use second_reference::net::{Factors, Net, NEED};

/// The set has so many; more may come, and none may go.
pub const LEAST_NETS: usize = 186;

const SEED: u64 = 20_090_401;

/// On both sides of each array size (16, 64, 512), in turn from shape to shape.
const SIZES: [[usize; 6]; 2] = [[1, 3, 16, 17, 64, 512], [2, 3, 16, 17, 65, 512]];

/// Nets whose factors differ: their shape, factors h and v, and size.
const TWO_METALS: [(&str, i64, i64, usize); 16] = [
    ("common", 3, 5, 1),
    ("common", 120, 200, 12),
    ("common", 200, 120, 512),
    ("tied", 1, 2, 16),
    ("tied", 3, 2, 65),
    ("coincident", 1, 400, 3),
    ("extreme", 1, 10_000, 17),
    ("extreme", 10_000, 1, 64),
    ("rising-path", 2, 3, 512),
    ("spare", 10_000, 9_999, 17),
    ("falling", 1, 2, 64),
    ("few-spots", 7, 2, 65),
    ("spread-out", 1, 10_000, 512),
    ("spread-out", 10_000, 1, 17),
    ("as-near", 1, 3, 64),
    ("near-root", 5, 1, 65),
];

/// A shape, its factors where they differ, and a size.
type Asked = (&'static str, Option<(i64, i64)>, usize);

/// Nets of the format's ranges, to their ends.
const NANOMETRE_NETS: [Asked; 17] = [
    ("common", None, 12),
    ("common", Some((120, 200)), 512),
    ("coincident", None, 16),
    ("cornered", None, 2),
    ("cornered", None, 65),
    ("cornered", Some((3, 2)), 512),
    ("extreme", None, 1),
    ("extreme", None, 17),
    ("extreme", None, 512),
    ("extreme", Some((1, 10_000)), 16),
    ("extreme", Some((10_000, 1)), 64),
    ("few-spots", None, 17),
    ("spread-out", None, 3),
    ("spread-out", None, 64),
    ("spread-out", Some((10_000, 1)), 512),
    ("tree-near-root", None, 512),
    ("path-near-root", None, 65),
];

/// Nets by how their pins stand to each other, which decides their short trees.
const STREET_NETS: [Asked; 7] = [
    ("grid", None, 64),
    ("line", None, 17),
    ("comb", None, 64),
    ("columns", None, 65),
    ("clusters", Some((120, 200)), 65),
    ("ring", None, 17),
    ("stairs", Some((3, 2)), 16),
];

/// Nets with other weights than 1, which decide their third plans: their shape,
/// how they are weighed, and size.
const WEIGHTED_NETS: [(&str, &str, usize); 14] = [
    ("common", "any", 12),
    ("common", "any", 512),
    ("extreme", "ends", 17),
    ("extreme", "ends", 512),
    ("tied", "few", 65),
    ("spread-out", "sums", 64),
    ("stairs", "sums", 17),
    ("grid", "powers", 64),
    ("spread-out", "fibonacci", 17),
    ("clusters", "fibonacci", 65),
    ("common", "fibonacci", 512),
    ("spread-out", "equal", 16),
    ("ring", "heavy", 17),
    ("common", "heavy", 65),
];

/// Nets whose need is out of reach.
const UNREACHABLE_NETS: [(&str, usize); 4] = [
    ("common", 12),
    ("coincident", 16),
    ("spread-out", 65),
    ("comb", 17),
];

/// What such a net's name has before its number of sinks.
const UNREACHABLE: &str = "-unreachable";

/// Up to so many sinks every net has its short tree stored, above that these.
const MOST_SHORT: usize = 65;
pub const LARGE_SHORT: [&str; 8] = [
    "common-512",
    "tied-512",
    "coincident-512",
    "spread-out-512",
    "as-near-512",
    "as-near-times-1000-512",
    "longest-nm-512",
    "cornered-nm-wire-3-2-512",
];

/// So it is with third plans.
const MOST_WEIGHTED: usize = 65;
pub const LARGE_WEIGHTED: [&str; 8] = [
    "common-512",
    "as-near-512",
    "as-near-times-1000-512",
    "longest-nm-512",
    "longest-nm-weights-most-512",
    "common-nm-weights-any-512",
    "common-nm-weights-fibonacci-512",
    "extreme-nm-weights-ends-512",
];

/// Stored nets of which the set has the image too.
const IMAGES_OF: [&str; 7] = [
    "marked-a-3",
    "two-metals-3",
    "tied-65",
    "coincident-17",
    "extreme-wire-10000-1-64",
    "as-near-512",
    "spread-out-512",
];

/// What an image's name has before its number of sinks, and what it means.
const TIMES: &str = "-times-1000";
const FACTOR: i64 = 1_000;

type Named = (String, Vec<u8>);

/// Every net of the set, by name. Those with neither `nm` nor `times` in their
/// names are of the ranges before request 5, which lie within the format's. Those
/// without `weight` have weights of 1.
pub fn drawn() -> Vec<Named> {
    let mut all = given();
    for (i, (shape, _)) in SHAPES.into_iter().enumerate() {
        for n in SIZES[i % SIZES.len()] {
            all.push(draw(&MICROMETRES, shape, None, n));
        }
    }
    for (shape, horizontal, vertical, n) in TWO_METALS {
        let wire = Some((horizontal, vertical));
        all.push(draw(&MICROMETRES, shape, wire, n));
    }
    for (shape, wire, n) in NANOMETRE_NETS {
        all.push(draw(&NANOMETRES, &format!("{shape}-nm"), wire, n));
    }
    for (shape, wire, n) in STREET_NETS {
        all.push(draw(&NANOMETRES, &format!("{shape}-nm"), wire, n));
    }
    all.extend(WEIGHTED_NETS.map(|(shape, how, n)| weighed(shape, how, n)));
    all.extend(unreachable());
    let images: Vec<Named> = IMAGES_OF.iter().map(|name| image(&all, name)).collect();
    all.extend(images);
    all
}

/// The marked nets and the longest.
fn given() -> Vec<Named> {
    let marked = MARKED.iter().chain(&METALS).chain(&RANGE_END).chain(&SHORT);
    let marked = marked.chain(&WEIGHTED);
    let marked = marked.map(|(name, net)| (name.to_string(), net.to_vec()));
    let (small, large) = (nets::longest(&MICROMETRES), nets::longest(&NANOMETRES));
    let longest = [
        ("longest-512", weights::light(small)),
        ("longest-nm-512", weights::light(large.clone())),
        ("longest-nm-weights-most-512", large),
    ];
    let longest = longest.map(|(name, net)| (name.to_string(), net.text()));
    marked.chain(longest).collect()
}

fn weighed(shape: &str, how: &str, n: usize) -> Named {
    let (name, net) = draw(&NANOMETRES, &format!("{shape}-nm-weights-{how}"), None, n);
    let net = Net::read(&net).expect("a net's text");
    let (_, weigh) = WEIGHTS
        .into_iter()
        .find(|(name, _)| *name == how)
        .expect("the name of weights");
    let net = weights::by(&Random::named(SEED, &name), weigh, net);
    (name, net.text())
}

/// One more is needed than any tree has, or the most that can be asked for.
fn unreachable() -> Vec<Named> {
    let (_, a) = MARKED[0];
    let drawn = UNREACHABLE_NETS.map(|(shape, n)| {
        let (name, net) = draw(&NANOMETRES, &format!("{shape}-nm{UNREACHABLE}"), None, n);
        (name, Net::read(&net).expect("a net's text"))
    });
    let a = Net::read(a).expect("a marked net");
    let all = [(format!("marked-a{UNREACHABLE}-3"), a)].into_iter();
    let asking = |(i, (name, mut net)): (usize, (String, Net))| {
        net.need = [kraft::maximum(&net) as i64 + 1, NEED.1][i % 2];
        (name, net.text())
    };
    all.chain(drawn).enumerate().map(asking).collect()
}

/// Whether the net has a first plan.
pub fn is_reachable(name: &str) -> bool {
    !name.contains(UNREACHABLE)
}

/// Whether the net's short tree is stored.
pub fn has_short(name: &str) -> bool {
    sinks(name) <= MOST_SHORT || LARGE_SHORT.contains(&name)
}

/// Whether the net's third plan is stored.
pub fn has_weighted(name: &str) -> bool {
    sinks(name) <= MOST_WEIGHTED || LARGE_WEIGHTED.contains(&name)
}

/// A name ends with them; one that does not is no net's of the set.
fn sinks(name: &str) -> usize {
    let end = name.rsplit_once('-').map(|(_, n)| n.parse());
    end.and_then(|n| n.ok()).unwrap_or(usize::MAX)
}

fn image(all: &[Named], name: &str) -> Named {
    let (_, net) = all.iter().find(|(n, _)| n == name).expect("a stored net");
    let (shape, n) = name.rsplit_once('-').expect("a name ends with its sinks");
    let image = scaled::net(net, FACTOR).expect("a net's text");
    (format!("{shape}{TIMES}-{n}"), image)
}

/// The net of which this one is the image, by its name, and how many times.
pub fn original(name: &str) -> Option<(String, i64)> {
    name.contains(TIMES)
        .then(|| (name.replacen(TIMES, "", 1), FACTOR))
}

/// By a seed of its own, so that no net depends on the others.
fn draw(ranges: &Ranges, named: &str, wire: Option<(i64, i64)>, n: usize) -> Named {
    let name = match wire {
        Some((h, v)) => format!("{named}-wire-{h}-{v}-{n}"),
        None => format!("{named}-{n}"),
    };
    let shape = named.split_once("-nm").map_or(named, |(shape, _)| shape);
    let (_, make) = SHAPES
        .into_iter()
        .chain(STREETS)
        .find(|(name, _)| *name == shape)
        .expect("a shape's name");
    let mut net = make(&mut Random::named(SEED, &name), ranges, n);
    if let Some((h, v)) = wire {
        net = metals::slacks_kept(ranges, net, Factors::new(h, v));
    }
    (name, asking(net))
}

/// The need is the best slack where the number of sinks is even, else as it
/// was: the lowest.
fn asking(mut net: Net) -> Vec<u8> {
    if net.sinks.len() % 2 == 0 {
        net.need = kraft::maximum(&net) as i64;
    }
    net.text()
}
