//! The two outputs lent for a deletion, and what it left in them.

use crate::scores::Judged;
use crate::session::{fill, GUARD};
use second_reference::answer::Deletion;

/// How many bytes are lent for the shorter net and for its listing.
#[derive(Clone, Copy, Debug)]
pub struct Room {
    pub net: usize,
    pub listing: usize,
}

impl Room {
    pub fn new(net: usize, listing: usize) -> Room {
        Room { net, listing }
    }

    /// As much as the texts before have: enough, since both get shorter.
    pub fn as_before(judged: &Judged) -> Room {
        Room::new(judged.net.len(), judged.listing.len())
    }
}

/// What a deletion left in both outputs, beside its figures. Past either there is
/// a guard, which was not lent.
#[derive(PartialEq, Eq)]
pub struct Deleted {
    pub answer: Deletion,
    pub net_out: Vec<u8>,
    pub listing_out: Vec<u8>,
}

pub type Delete = fn(&[u8], &[u8], usize, &mut [u8], &mut [u8]) -> Deletion;

impl Deleted {
    pub fn by(delete: Delete, judged: &Judged, sink: usize, room: Room) -> Deleted {
        let (mut net_out, mut listing_out) = (fill(room.net + GUARD), fill(room.listing + GUARD));
        let answer = delete(
            &judged.net,
            &judged.listing,
            sink,
            &mut net_out[..room.net],
            &mut listing_out[..room.listing],
        );
        Deleted {
            answer,
            net_out,
            listing_out,
        }
    }

    pub fn net(&self) -> &[u8] {
        front(&self.net_out, self.answer.net_bytes)
    }

    pub fn listing(&self) -> &[u8] {
        front(&self.listing_out, self.answer.listing_bytes)
    }

    /// "bytes beyond them keep their values"; at a refusal all do.
    pub fn is_kept_beyond(&self) -> bool {
        is_kept_from(&self.net_out, self.answer.net_bytes)
            && is_kept_from(&self.listing_out, self.answer.listing_bytes)
    }
}

/// Also where more bytes are told than the output has.
fn front(out: &[u8], bytes: usize) -> &[u8] {
    &out[..bytes.min(out.len())]
}

fn is_kept_from(out: &[u8], bytes: usize) -> bool {
    bytes <= out.len() && out[bytes..] == fill(out.len())[bytes..]
}

#[cfg(test)]
mod tests {
    use super::*;

    #[test]
    fn a_byte_beyond_is_seen() {
        let mut out = fill(80);
        out[..3].copy_from_slice(b"abc");
        assert!(is_kept_from(&out, 3) && is_kept_from(&out, 80));
        assert!(!is_kept_from(&out, 2) && !is_kept_from(&out, 81));
        out[79] = 0;
        assert!(!is_kept_from(&out, 3));
    }
}
