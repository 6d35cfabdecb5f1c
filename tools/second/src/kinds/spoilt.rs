//! Texts that are damaged in every way.

use crate::damage;
use crate::metals;
use crate::nets;
use crate::random::Random;
use crate::ranges::NANOMETRES;
use crate::session::Session;
use repeater_tree::{LISTING_LENGTH, NET_LENGTH};
use second_reference::net::Net;

/// A net in the format and its plan's listing; now and then a large one.
fn texts_of_any_size(s: &mut Session, r: &mut Random) -> (Vec<u8>, Vec<u8>) {
    let n = if r.once_in(50) {
        r.pick(&[200, 512])
    } else {
        r.between(1, 8) as usize
    };
    texts(s, r, n)
}

fn small_texts(s: &mut Session, r: &mut Random, most: i64) -> (Vec<u8>, Vec<u8>) {
    let n = r.between(1, most) as usize;
    texts(s, r, n)
}

fn texts(s: &mut Session, r: &mut Random, n: usize) -> (Vec<u8>, Vec<u8>) {
    let net = nets::any(r, n);
    texts_of(s, &net)
}

fn texts_of(s: &mut Session, net: &Net) -> (Vec<u8>, Vec<u8>) {
    let net = net.text();
    let listing = s.plan(&net, LISTING_LENGTH).listing().to_vec();
    (net, listing)
}

pub fn spoilt(r: &mut Random, text: &[u8]) -> Vec<u8> {
    let mut text = damage::any(r, text);
    while r.once_in(4) {
        text = damage::any(r, &text);
    }
    text
}

pub fn net(s: &mut Session, r: &mut Random) {
    let (net, listing) = texts_of_any_size(s, r);
    for _ in 0..20 {
        let other = spoilt(r, &net);
        let length = r.pick(&[0, 60, LISTING_LENGTH]);
        s.plan(&other, length);
        s.judge(&other, &listing);
    }
}

pub fn listing(s: &mut Session, r: &mut Random) {
    let (net, listing) = texts_of_any_size(s, r);
    for _ in 0..20 {
        let other = spoilt(r, &listing);
        s.judge(&net, &other);
    }
}

/// The net's faults go before the listing's.
pub fn both(s: &mut Session, r: &mut Random) {
    let (net, listing) = texts_of_any_size(s, r);
    for _ in 0..10 {
        let (net, listing) = (spoilt(r, &net), spoilt(r, &listing));
        s.judge(&net, &listing);
    }
    s.judge(&listing, &net);
    s.plan(&listing, LISTING_LENGTH);
}

/// Both texts cut at every place, and the damages due for every text.
pub fn cuts(s: &mut Session, r: &mut Random) {
    let (net, listing) = small_texts(s, r, 6);
    for end in 0..=net.len() {
        s.plan(&net[..end], LISTING_LENGTH);
        s.judge(&net[..end], &listing);
    }
    for end in 0..=listing.len() {
        s.judge(&net, &listing[..end]);
    }
    for other in damage::whole(&net) {
        s.plan(&other, LISTING_LENGTH);
        s.judge(&other, &listing);
    }
    for other in damage::whole(&listing) {
        s.judge(&net, &other);
    }
}

/// Each number of both texts in each odd spelling and at each limit.
pub fn numbers(s: &mut Session, r: &mut Random) {
    let (net, listing) = small_texts(s, r, 4);
    net_numbers(s, &net, &listing);
    for other in each_number(&listing) {
        s.judge(&net, &other);
    }
    // In a corner a pin at the end of the range is near enough.
    let n = r.between(1, 4) as usize;
    let (net, listing) = texts_of(s, &metals::drawn_in(r, &NANOMETRES, nets::cornered, n));
    net_numbers(s, &net, &listing);
}

fn net_numbers(s: &mut Session, net: &[u8], listing: &[u8]) {
    for other in each_number(net) {
        s.plan(&other, LISTING_LENGTH);
        s.judge(&other, listing);
    }
}

fn each_number(text: &[u8]) -> Vec<Vec<u8>> {
    let mut all = Vec::new();
    for at in damage::numbers(text) {
        let value = &text[at.clone()];
        // Small numbers are the ends of a parent's range over a few sinks.
        let small = (-1..12).map(|v: i64| v.to_string().into_bytes()).collect();
        let others = [
            damage::odd_spellings(value),
            damage::congruent(value),
            damage::limits(),
            damage::across(value),
            small,
        ];
        for by in others.concat() {
            all.push(damage::replaced(text, at.clone(), &by));
        }
    }
    all
}

/// As long as a listing could be before request 5, and longer than a net.
const FEWER: usize = 24_576;

/// Texts exactly at their length limit, and one past it.
pub fn lengths(s: &mut Session, r: &mut Random) {
    let (net, listing) = small_texts(s, r, 6);
    let spoilt_net = spoilt(r, &net);
    for length in [
        NET_LENGTH - 1,
        NET_LENGTH,
        NET_LENGTH + 1,
        FEWER + 1,
        3 * NET_LENGTH,
    ] {
        for other in damage::of_length(r, &net, length) {
            s.plan(&other, LISTING_LENGTH);
            s.judge(&other, &listing);
        }
    }
    for length in [
        LISTING_LENGTH - 1,
        LISTING_LENGTH,
        LISTING_LENGTH + 1,
        FEWER + 1,
        3 * LISTING_LENGTH,
    ] {
        for other in damage::of_length(r, &listing, length) {
            s.judge(&net, &other);
            s.judge(&spoilt_net, &other);
        }
    }
}
