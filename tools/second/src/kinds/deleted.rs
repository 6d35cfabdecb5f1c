//! What the kinds of deletion have in common: nets and trees, and what is told.

use super::scored::trees_over;
use super::weighted::any_shape;
use crate::deleted::Room;
use crate::metals;
use crate::random::Random;
use crate::scores::Judged;
use crate::session::Session;
use second_reference::net::{Net, NEED};
use second_reference::tree::Tree;

/// A net of any shape, and of any need, which stays.
pub fn drawn(r: &mut Random, n: usize) -> Net {
    let make = any_shape(r);
    let mut net = metals::drawn(r, make, n);
    let any = r.between(NEED.0, NEED.1);
    net.need = r.pick(&[NEED.0, -1, 0, NEED.1, any, any]);
    net
}

/// A net of so many sinks, and a tree over it.
pub fn any_of(r: &mut Random, least: i64, most: i64) -> (Net, Tree) {
    let n = r.between(least, most) as usize;
    let net = drawn(r, n);
    let mut all = trees_over(r, &net);
    let tree = all.swap_remove(r.index(all.len()));
    (net, tree)
}

/// By this number, or by none where it is 0.
pub fn told(s: &mut Session, texts: &Judged, sink: usize, room: Room, number: u8) {
    let got = s.delete_pin(texts, sink, room);
    let holds = got.answer.number == number;
    let what = format!("{number} is due");
    s.expect_deletion(holds, &what, texts, (sink, room), &got);
}

/// 16 for the only sink, 15 for the one after it.
pub fn last(s: &mut Session, texts: &Judged) {
    for (sink, number) in [(1, 16), (2, 15)] {
        told(s, texts, sink, Room::as_before(texts), number);
    }
}
