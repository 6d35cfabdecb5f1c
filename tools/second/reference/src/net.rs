//! The net and its text.

use crate::answer::Refusal;
use crate::spelling::Lines;
use crate::tree::Point;

/// 02, request 5: positions are in nanometres, times in attoseconds, and "Both
/// texts may have 32,768 bytes".
pub const LENGTH: usize = 32_768;
pub const COORDINATE: i64 = 100_000_000;
/// How far from the root a sink may be.
pub const PIN_LIMIT: i64 = 40_000_000;
pub const BRANCH: (i64, i64) = (1, 1_000_000_000);
pub const WIRE: (i64, i64) = (1, 10_000);
pub const NEED: (i64, i64) = (-2_000_000_000_000_000, 2_000_000_000_000_000);
pub const SINKS: (i64, i64) = (1, 512);
pub const ARRIVAL: (i64, i64) = (-1_000_000_000_000_000, 1_000_000_000_000_000);
/// 02, request 7: a sink's weight, "1 to 1,000".
pub const WEIGHT: (i64, i64) = (1, 1_000);

#[derive(Clone, Copy, Debug, PartialEq, Eq)]
pub struct Sink {
    pub at: Point,
    pub arrival: i64,
    pub weight: i64,
}

/// Attoseconds that a nanometre costs, in each of the metal directions.
#[derive(Clone, Copy, Debug, PartialEq, Eq)]
pub struct Factors {
    /// h, along x.
    pub horizontal: i64,
    /// v, along y.
    pub vertical: i64,
}

impl Factors {
    pub fn new(horizontal: i64, vertical: i64) -> Factors {
        Factors {
            horizontal,
            vertical,
        }
    }

    /// The same in both directions.
    pub fn equal(factor: i64) -> Factors {
        Factors::new(factor, factor)
    }

    pub fn exchanged(self) -> Factors {
        Factors::new(self.vertical, self.horizontal)
    }

    /// 02, request 4: "delay along an edge is h × |dx| + v × |dy|, in own
    /// slack as in path slack".
    pub fn delay(self, p: Point, q: Point) -> i128 {
        let (dx, dy) = ((p.x - q.x).abs(), (p.y - q.y).abs());
        self.horizontal as i128 * dx + self.vertical as i128 * dy
    }
}

#[derive(Clone, Debug, PartialEq, Eq)]
pub struct Net {
    pub root: Point,
    /// c
    pub branch: i64,
    pub wire: Factors,
    /// t
    pub need: i64,
    pub sinks: Vec<Sink>,
}

impl Net {
    pub fn read(bytes: &[u8]) -> Result<Net, Refusal> {
        let mut lines = Lines::new(bytes, 1, LENGTH)?;
        let root = read_point(&mut lines)?;
        let branch = read_one(&mut lines, "branch=", BRANCH)?;
        let wire = read_factors(&mut lines)?;
        let need = read_one(&mut lines, "need=", NEED)?;
        let count = read_one(&mut lines, "sinks=", SINKS)?;
        let mut sinks = Vec::new();
        for _ in 0..count {
            sinks.push(read_sink(&mut lines, root)?);
        }
        lines.finish()?;
        Ok(Net {
            root,
            branch,
            wire,
            need,
            sinks,
        })
    }

    pub fn text(&self) -> Vec<u8> {
        let mut text = format!("root={},{}\n", self.root.x, self.root.y);
        text += &format!(
            "branch={}\nwire={},{}\nneed={}\n",
            self.branch, self.wire.horizontal, self.wire.vertical, self.need
        );
        text += &format!("sinks={}\n", self.sinks.len());
        for sink in &self.sinks {
            let Sink {
                at,
                arrival,
                weight,
            } = sink;
            text += &format!("sink={},{},{arrival},{weight}\n", at.x, at.y);
        }
        text.into_bytes()
    }

    /// a' of sink k, 1 to n.
    pub fn own_slack(&self, k: usize) -> i128 {
        let sink = &self.sinks[k - 1];
        sink.arrival as i128 - self.wire.delay(self.root, sink.at)
    }

    pub fn own_slacks(&self) -> Vec<i128> {
        (1..=self.sinks.len()).map(|k| self.own_slack(k)).collect()
    }
}

fn read_point(lines: &mut Lines) -> Result<Point, Refusal> {
    let numbers = lines.due("root=", 2)?;
    let x = lines.value(numbers[0], -COORDINATE, COORDINATE)?;
    let y = lines.value(numbers[1], -COORDINATE, COORDINATE)?;
    lines.step();
    Ok(Point::new(x, y))
}

fn read_one(lines: &mut Lines, key: &str, range: (i64, i64)) -> Result<i64, Refusal> {
    let numbers = lines.due(key, 1)?;
    let value = lines.value(numbers[0], range.0, range.1)?;
    lines.step();
    Ok(value)
}

/// 02, request 4: "The net line becomes `wire=h,v`, each 1 to 10,000".
fn read_factors(lines: &mut Lines) -> Result<Factors, Refusal> {
    let numbers = lines.due("wire=", 2)?;
    let horizontal = lines.value(numbers[0], WIRE.0, WIRE.1)?;
    let vertical = lines.value(numbers[1], WIRE.0, WIRE.1)?;
    lines.step();
    Ok(Factors::new(horizontal, vertical))
}

/// 02, request 2: a sink farther from the root than the limit "is refused in
/// every call that reads a net", by "13, text 1, the sink's line, right after 3
/// on that line". Request 5: "The pin limit of request 2 is 40,000,000".
/// Request 7: "Each sink line gains a fourth number, its weight"; "lines without
/// it are misspelt under 2".
fn read_sink(lines: &mut Lines, root: Point) -> Result<Sink, Refusal> {
    let numbers = lines.due("sink=", 4)?;
    let x = lines.value(numbers[0], -COORDINATE, COORDINATE)?;
    let y = lines.value(numbers[1], -COORDINATE, COORDINATE)?;
    let arrival = lines.value(numbers[2], ARRIVAL.0, ARRIVAL.1)?;
    let weight = lines.value(numbers[3], WEIGHT.0, WEIGHT.1)?;
    let at = Point::new(x, y);
    if root.distance(at) > PIN_LIMIT as i128 {
        return Err(lines.refuse(13));
    }
    lines.step();
    Ok(Sink {
        at,
        arrival,
        weight,
    })
}
