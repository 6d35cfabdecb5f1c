//! Tables of times by shape and size of the net, and what is read off them.

use second_tool::shapes::Make;

/// Nanoseconds per call.
#[derive(Clone, Copy)]
pub struct Times {
    pub library: f64,
    pub plain: f64,
    /// By the plain implementation's plainest way.
    pub plainest: f64,
    /// Another call of the library: the first plan of the same net, or the
    /// judgement of what is scored or loses a pin.
    pub other: f64,
}

impl Times {
    pub fn over_plain(&self) -> f64 {
        self.library / self.plain
    }

    pub fn over_other(&self) -> f64 {
        self.library / self.other
    }

    pub fn beside_plain(&self) -> String {
        beside(self.library, self.plain)
    }

    pub fn beside_plainest(&self) -> String {
        beside(self.library, self.plainest)
    }
}

fn beside(one: f64, two: f64) -> String {
    let ratio = one / two;
    format!(
        "{} / {} = **{ratio:.2}**",
        microseconds(one),
        microseconds(two)
    )
}

/// Three digits that count.
fn microseconds(nanoseconds: f64) -> String {
    let time = nanoseconds / 1000.0;
    match time {
        _ if time < 9.995 => format!("{time:.2}"),
        _ if time < 99.95 => format!("{time:.1}"),
        _ => format!("{time:.0}"),
    }
}

pub type Shape = (&'static str, Make);

/// A row for each shape, the common one first, a column for each size, the
/// largest last.
pub struct Table {
    shapes: &'static [Shape],
    sizes: &'static [usize],
    rows: Vec<Vec<Times>>,
}

impl Table {
    pub fn timed(
        shapes: &'static [Shape],
        sizes: &'static [usize],
        time: impl Fn(Make, usize) -> Times,
    ) -> Table {
        let row = |make: Make| sizes.iter().map(|&n| time(make, n)).collect();
        let rows = shapes.iter().map(|&(_, make)| row(make)).collect();
        Table {
            shapes,
            sizes,
            rows,
        }
    }

    fn named_rows(&self) -> impl Iterator<Item = (&'static str, &Vec<Times>)> {
        let names = self.shapes.iter().map(|(name, _)| *name);
        names.zip(&self.rows)
    }

    pub fn print(&self, title: &str, cell: fn(&Times) -> String) {
        println!("\n{title}\n");
        let head = |n: &usize| format!("{n} sink{}", if *n == 1 { "" } else { "s" });
        let heads: Vec<String> = self.sizes.iter().map(head).collect();
        println!("| Nets | {} |", heads.join(" | "));
        println!("|---|{}", "---|".repeat(self.sizes.len()));
        for (shape, row) in self.named_rows() {
            let cells: Vec<String> = row.iter().map(cell).collect();
            println!("| {shape} | {} |", cells.join(" | "));
        }
    }

    /// The largest ratio of the table, and where it stands.
    pub fn print_largest(&self, name: &str, ratio: fn(&Times) -> f64) {
        let all = self.named_rows().flat_map(|(shape, row)| {
            let cells = row.iter().zip(self.sizes);
            cells.map(move |(times, n)| (ratio(times), shape, n))
        });
        if let Some((most, shape, n)) = all.max_by(|a, b| a.0.total_cmp(&b.0)) {
            println!("\nlargest {name}: {most:.2} ({shape}, {n} sinks)");
        }
    }

    /// From the size before the largest to the largest, by shape; then the
    /// dearest shape.
    pub fn print_growth(&self) {
        let last = self.sizes.len() - 1;
        let (large, largest) = (self.sizes[last - 1], self.sizes[last]);
        let ratio = largest as f64 / large as f64;
        println!(
            "\ntime at {largest} sinks over time at {large}; the square of their ratio is {:.2}, \
             the cube {:.2}:",
            ratio.powi(2),
            ratio.powi(3)
        );
        for (shape, row) in self.named_rows() {
            let (small, large) = (row[last - 1], row[last]);
            println!(
                "{shape:<14} library {:.2}, plain {:.2}",
                large.library / small.library,
                large.plain / small.plain
            );
        }
        let worst = |time: fn(&Times) -> f64| {
            let all = self.named_rows();
            let all = all.map(|(shape, row)| (time(&row[last]) / time(&self.rows[0][last]), shape));
            let (times, shape) = all.max_by(|a, b| a.0.total_cmp(&b.0)).expect("a shape");
            format!("{times:.2} ({shape})")
        };
        println!(
            "worst of the {largest}-sink shapes over the common one: library {}, plain {}",
            worst(|t| t.library),
            worst(|t| t.plain)
        );
    }
}
