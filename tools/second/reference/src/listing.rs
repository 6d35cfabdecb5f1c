//! The tree listing: reading, and writing of a tree with its measures.

use crate::answer::Refusal;
use crate::net::{Net, COORDINATE, SINKS};
use crate::spelling::Lines;
use crate::tree::{Point, Tree};

pub const LENGTH: usize = 32_768;
pub const SLACK: (i64, i64) = (-4_000_000_000_000_000, 4_000_000_000_000_000);
pub const WIRE: (i64, i64) = (0, 1_000_000_000_000);

#[derive(Clone, Debug, PartialEq, Eq)]
pub struct Listing {
    pub slack: i64,
    pub wire: i64,
    pub tree: Tree,
}

impl Listing {
    /// Refusals 1 to 4, 7 and 8; the tree may still be illegal.
    pub fn read(bytes: &[u8], net: &Net) -> Result<Listing, Refusal> {
        let n = net.sinks.len();
        let mut lines = Lines::new(bytes, 2, LENGTH)?;
        let slack = read_one(&mut lines, "slack=", SLACK)?;
        let wire = read_one(&mut lines, "wire=", WIRE)?;
        let numbers = lines.due("sinks=", 1)?;
        if lines.value(numbers[0], SINKS.0, SINKS.1)? != n as i64 {
            return Err(lines.refuse(7));
        }
        lines.step();
        let mut tree = Tree {
            parent: vec![0],
            point: vec![net.root],
        };
        for k in 1..2 * n {
            read_vertex(&mut lines, net, k, &mut tree)?;
        }
        lines.finish()?;
        Ok(Listing { slack, wire, tree })
    }

    pub fn text(&self) -> Vec<u8> {
        let n = self.tree.parent.len() / 2;
        let mut text = format!("slack={}\nwire={}\nsinks={n}\n", self.slack, self.wire);
        for k in 1..2 * n {
            let (parent, at) = (self.tree.parent[k], self.tree.point[k]);
            text += &match k <= n {
                true => format!("leaf={k},{parent}\n"),
                false => format!("node={k},{parent},{},{}\n", at.x, at.y),
            };
        }
        text.into_bytes()
    }
}

fn read_one(lines: &mut Lines, key: &str, range: (i64, i64)) -> Result<i64, Refusal> {
    let numbers = lines.due(key, 1)?;
    let value = lines.value(numbers[0], range.0, range.1)?;
    lines.step();
    Ok(value)
}

fn read_vertex(lines: &mut Lines, net: &Net, k: usize, tree: &mut Tree) -> Result<(), Refusal> {
    let n = net.sinks.len();
    let numbers = if k <= n {
        lines.due("leaf=", 2)?
    } else {
        lines.due("node=", 4)?
    };
    // Spelling is canonical, so another spelling is another number.
    if numbers[0] != k.to_string().as_bytes() {
        return Err(lines.refuse(2));
    }
    let parent = lines.value(numbers[1], 0, 2 * n as i64 - 1)? as usize;
    let at = if k <= n {
        net.sinks[k - 1].at
    } else {
        let x = lines.value(numbers[2], -COORDINATE, COORDINATE)?;
        let y = lines.value(numbers[3], -COORDINATE, COORDINATE)?;
        Point::new(x, y)
    };
    if (1..=n).contains(&parent) {
        return Err(lines.refuse(8));
    }
    tree.parent.push(parent);
    tree.point.push(at);
    lines.step();
    Ok(())
}
