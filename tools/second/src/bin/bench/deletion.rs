//! A pin's deletion: its times by shape and size of the net.

use crate::table::{Shape, Table, Times};
use crate::{cases, library_judge, planned, Case};
use repeater_tree::{delete_pin_figures, DeletionFigures, LISTING_LENGTH, NET_LENGTH};
use second_reference::plain;
use second_tool::nets;
use second_tool::shapes::Make;
use second_tool::timing::compare;
use std::hint::black_box;

/// Its first part is judge's, whose dearest shapes are among these.
const SHAPES: [Shape; 3] = [
    ("common", nets::common),
    ("falling", nets::falling),
    ("path, rising", nets::rising),
];
/// As for the other calls, but that a lone sink stays.
const SIZES: [usize; 8] = [2, 5, 12, 16, 17, 50, 200, 512];

/// A sink of a case's net, and where the shorter texts go.
struct Deletion {
    sink: usize,
    net: Vec<u8>,
    listing: Vec<u8>,
}

impl Deletion {
    fn of(sink: usize) -> Deletion {
        Deletion {
            sink,
            net: vec![0; NET_LENGTH],
            listing: vec![0; LISTING_LENGTH],
        }
    }

    fn by_library(&mut self, case: &Case) {
        let mut figures = DeletionFigures::default();
        let (net, listing) = (black_box(&case.net), black_box(&case.listing));
        let outs = (&mut self.net, &mut self.listing);
        delete_pin_figures(net, listing, self.sink, outs.0, outs.1, &mut figures);
        assert_eq!(black_box(&figures).number, 0);
    }

    fn by_plain(&mut self, case: &Case) {
        let (net, listing) = (black_box(&case.net), black_box(&case.listing));
        let outs = (&mut self.net, &mut self.listing);
        let answer = plain::delete_pin(net, listing, self.sink, outs.0, outs.1);
        assert_eq!(black_box(answer).number, 0);
    }
}

/// Of the sink in the middle.
fn time(make: Make, n: usize) -> Times {
    let (mut one, mut two) = (Deletion::of(n.div_ceil(2)), Deletion::of(n.div_ceil(2)));
    let [library, plain, other] = compare(
        &cases(make, n, planned),
        &mut [
            &mut |case: &Case| one.by_library(case),
            &mut |case: &Case| two.by_plain(case),
            &mut library_judge,
        ],
    );
    Times {
        library,
        plain,
        plainest: plain,
        other,
    }
}

pub fn deleted_pins() {
    let table = Table::timed(&SHAPES, &SIZES, time);
    table.print(
        "delete_pin of plans: microseconds, library / plain = ratio",
        Times::beside_plain,
    );
    table.print(
        "delete_pin of plans: its time over that of judge on the same listing",
        |times| format!("{:.2}", times.over_other()),
    );
    table.print_largest("delete_pin over plain", Times::over_plain);
    table.print_largest("delete_pin over judge", Times::over_other);
    table.print_growth();
}
