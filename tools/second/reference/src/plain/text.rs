//! The listing's text and the net's.

use super::read::{Net, Point};

pub fn listing(slack: i64, wire: i64, parent: &[usize], points: &[Point]) -> Vec<u8> {
    let n = parent.len() / 2;
    let mut text = Vec::with_capacity(40 * n + 60);
    put(&mut text, b"slack=", slack);
    put(&mut text, b"\nwire=", wire);
    put(&mut text, b"\nsinks=", n as i64);
    for k in 1..2 * n {
        put(
            &mut text,
            if k <= n { b"\nleaf=" } else { b"\nnode=" },
            k as i64,
        );
        put(&mut text, b",", parent[k] as i64);
        if k > n {
            put(&mut text, b",", points[k].0);
            put(&mut text, b",", points[k].1);
        }
    }
    text.push(b'\n');
    text
}

pub fn net(net: &Net) -> Vec<u8> {
    let n = net.sinks();
    let mut text = Vec::with_capacity(40 * n + 100);
    put(&mut text, b"root=", net.points[0].0);
    put(&mut text, b",", net.points[0].1);
    put(&mut text, b"\nbranch=", net.branch);
    put(&mut text, b"\nwire=", net.wire.horizontal);
    put(&mut text, b",", net.wire.vertical);
    put(&mut text, b"\nneed=", net.need);
    put(&mut text, b"\nsinks=", n as i64);
    for k in 1..=n {
        put(&mut text, b"\nsink=", net.points[k].0);
        put(&mut text, b",", net.points[k].1);
        put(&mut text, b",", net.arrivals[k]);
        put(&mut text, b",", net.weights[k]);
    }
    text.push(b'\n');
    text
}

fn put(text: &mut Vec<u8>, before: &[u8], value: i64) {
    text.extend_from_slice(before);
    if value < 0 {
        text.push(b'-');
    }
    let mut digits = [0; 20];
    let mut at = digits.len();
    let mut rest = value.unsigned_abs();
    loop {
        at -= 1;
        digits[at] = b'0' + (rest % 10) as u8;
        rest /= 10;
        if rest == 0 {
            break;
        }
    }
    text.extend_from_slice(&digits[at..]);
}
