//! Both texts, read in one pass by a cursor.

use super::tree::distance;
use crate::answer::Refusal;

pub type Point = (i64, i64);

pub struct Net {
    pub branch: i64,
    pub wire: Factors,
    pub need: i64,
    /// Root first, then the sinks; so are the arrivals and the weights, the
    /// root's unused.
    pub points: Vec<Point>,
    pub arrivals: Vec<i64>,
    pub weights: Vec<i64>,
}

/// Attoseconds per nanometre across and upward.
#[derive(Clone, Copy)]
pub struct Factors {
    pub horizontal: i64,
    pub vertical: i64,
}

impl Factors {
    pub fn delay(self, a: Point, b: Point) -> i64 {
        self.horizontal * (a.0 - b.0).abs() + self.vertical * (a.1 - b.1).abs()
    }
}

impl Net {
    pub fn sinks(&self) -> usize {
        self.arrivals.len() - 1
    }
}

pub struct Listing {
    pub slack: i64,
    pub wire: i64,
    pub parent: Vec<usize>,
    pub points: Vec<Point>,
}

/// A sink that is farther from the root is the global planner's.
const FARTHEST: i64 = 40_000_000;

/// Any value beyond every range, for numbers too long to hold.
const HUGE: i64 = i64::MAX / 16;

struct Cursor<'a> {
    bytes: &'a [u8],
    at: usize,
    text: u8,
    line: usize,
}

type Read<T> = Result<T, Refusal>;

impl<'a> Cursor<'a> {
    fn new(bytes: &'a [u8], text: u8, limit: usize) -> Read<Cursor<'a>> {
        if bytes.len() > limit {
            return Err(Refusal {
                number: 1,
                text,
                line: 0,
            });
        }
        Ok(Cursor {
            bytes,
            at: 0,
            text,
            line: 1,
        })
    }

    fn fail<T>(&self, number: u8) -> Read<T> {
        Err(Refusal {
            number,
            text: self.text,
            line: self.line,
        })
    }

    fn key(&mut self, key: &[u8]) -> Read<()> {
        if !self.bytes[self.at..].starts_with(key) {
            return self.fail(2);
        }
        self.at += key.len();
        Ok(())
    }

    /// A number and the byte that must follow it.
    fn number(&mut self, after: u8) -> Read<i64> {
        let negative = self.bytes.get(self.at) == Some(&b'-');
        self.at += negative as usize;
        let start = self.at;
        let mut value = 0i64;
        while let Some(digit @ b'0'..=b'9') = self.bytes.get(self.at) {
            value = (value * 10 + (digit - b'0') as i64).min(HUGE);
            self.at += 1;
        }
        let zero_first = self.bytes.get(start) == Some(&b'0');
        if self.at == start || (zero_first && (negative || self.at > start + 1)) {
            return self.fail(2);
        }
        if self.bytes.get(self.at) != Some(&after) {
            return self.fail(2);
        }
        self.at += 1;
        Ok(if negative { -value } else { value })
    }

    fn within(&self, value: i64, low: i64, high: i64) -> Read<i64> {
        if value < low || value > high {
            return self.fail(3);
        }
        Ok(value)
    }

    fn coordinate(&self, value: i64) -> Read<i64> {
        self.within(value, -100_000_000, 100_000_000)
    }

    fn single(&mut self, key: &[u8], low: i64, high: i64) -> Read<i64> {
        self.key(key)?;
        let value = self.number(b'\n')?;
        self.within(value, low, high)?;
        self.line += 1;
        Ok(value)
    }

    fn end(&self) -> Read<()> {
        if self.at < self.bytes.len() {
            return self.fail(4);
        }
        Ok(())
    }
}

pub fn net(bytes: &[u8]) -> Read<Net> {
    let mut c = Cursor::new(bytes, 1, 32_768)?;
    c.key(b"root=")?;
    let (x, y) = (c.number(b',')?, c.number(b'\n')?);
    let root = (c.coordinate(x)?, c.coordinate(y)?);
    c.line += 1;
    let branch = c.single(b"branch=", 1, 1_000_000_000)?;
    let wire = factors(&mut c)?;
    let need = c.single(b"need=", -2_000_000_000_000_000, 2_000_000_000_000_000)?;
    let n = c.single(b"sinks=", 1, 512)? as usize;
    let mut points = Vec::with_capacity(2 * n);
    let mut arrivals = Vec::with_capacity(n + 1);
    let mut weights = Vec::with_capacity(n + 1);
    points.push(root);
    arrivals.push(0);
    weights.push(0);
    for _ in 0..n {
        let (at, arrival, weight) = sink(&mut c, root)?;
        points.push(at);
        arrivals.push(arrival);
        weights.push(weight);
        c.line += 1;
    }
    c.end()?;
    Ok(Net {
        branch,
        wire,
        need,
        points,
        arrivals,
        weights,
    })
}

fn factors(c: &mut Cursor) -> Read<Factors> {
    c.key(b"wire=")?;
    let (h, v) = (c.number(b',')?, c.number(b'\n')?);
    let horizontal = c.within(h, 1, 10_000)?;
    let vertical = c.within(v, 1, 10_000)?;
    c.line += 1;
    Ok(Factors {
        horizontal,
        vertical,
    })
}

/// Where it stands, its required arrival, its weight.
fn sink(c: &mut Cursor, root: Point) -> Read<(Point, i64, i64)> {
    c.key(b"sink=")?;
    let (x, y) = (c.number(b',')?, c.number(b',')?);
    let (a, w) = (c.number(b',')?, c.number(b'\n')?);
    let at = (c.coordinate(x)?, c.coordinate(y)?);
    let arrival = c.within(a, -1_000_000_000_000_000, 1_000_000_000_000_000)?;
    let weight = c.within(w, 1, 1_000)?;
    if distance(root, at) > FARTHEST {
        return c.fail(13);
    }
    Ok((at, arrival, weight))
}

pub fn listing(bytes: &[u8], net: &Net) -> Read<Listing> {
    let n = net.sinks();
    let mut c = Cursor::new(bytes, 2, 32_768)?;
    let slack = c.single(b"slack=", -4_000_000_000_000_000, 4_000_000_000_000_000)?;
    let wire = c.single(b"wire=", 0, 1_000_000_000_000)?;
    if c.single(b"sinks=", 1, 512)? != n as i64 {
        return Err(Refusal {
            number: 7,
            text: 2,
            line: 3,
        });
    }
    let mut parent = Vec::with_capacity(2 * n);
    let mut points = net.points.clone();
    parent.push(0);
    for k in 1..2 * n {
        let p = vertex(&mut c, n, k, &mut points)?;
        parent.push(p);
        c.line += 1;
    }
    c.end()?;
    Ok(Listing {
        slack,
        wire,
        parent,
        points,
    })
}

fn vertex(c: &mut Cursor, n: usize, k: usize, points: &mut Vec<Point>) -> Read<usize> {
    c.key(if k <= n { b"leaf=" } else { b"node=" })?;
    let named = c.number(b',')?;
    let p = c.number(if k <= n { b'\n' } else { b',' })?;
    let at = if k <= n {
        (0, 0)
    } else {
        (c.number(b',')?, c.number(b'\n')?)
    };
    if named != k as i64 {
        return c.fail(2);
    }
    c.within(p, 0, 2 * n as i64 - 1)?;
    if k > n {
        points.push((c.coordinate(at.0)?, c.coordinate(at.1)?));
    }
    if p >= 1 && p <= n as i64 {
        return c.fail(8);
    }
    Ok(p as usize)
}
