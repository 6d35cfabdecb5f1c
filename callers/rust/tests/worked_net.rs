//! The worked nets of docs/FORMAT.md: their texts are what the calls give.

use repeater_tree::{delete_pin, judge, plan, plan_short, plan_weighted, score};
use repeater_tree::{Plan, Refusal, CAP_LIMIT, LISTING_LENGTH, NET_LENGTH};

const PAGE: &str = include_str!("../../../docs/FORMAT.md");

/// The indented blocks of the section, each line without the words beside it.
fn blocks() -> Vec<String> {
    let (_, section) = PAGE.split_once("\n## 10. ").expect("the worked nets");
    let mut blocks = vec![String::new()];
    for line in section.lines() {
        let text = line.strip_prefix("    ").and_then(|l| l.split(' ').next());
        let block = blocks.last_mut().expect("one at least");
        match text {
            Some(text) => *block += &format!("{text}\n"),
            None if block.is_empty() => {}
            None => blocks.push(String::new()),
        }
    }
    blocks
}

#[test]
fn the_page_tells_what_is_given() {
    let blocks = blocks();
    let [net, listing, measures] = &blocks[..3] else {
        panic!("a net, its listing and its measures are due")
    };
    let mut out = [0; LISTING_LENGTH];
    let planned = plan(net.as_bytes(), &mut out).unwrap();
    assert_eq!(&out[..planned.bytes], listing.as_bytes());
    let judged = judge(net.as_bytes(), listing.as_bytes()).unwrap();
    let told = format!(
        "slack={}\nwire={}\nbest={}\n",
        judged.slack, judged.wire, judged.best
    );
    assert_eq!(told, *measures);
    let more = net.replace("need=-10\n", "need=-9\n");
    let refusal = plan(more.as_bytes(), &mut out).unwrap_err();
    assert_eq!((refusal.number, refusal.text, refusal.line), (5, 1, 4));
}

#[test]
fn the_page_tells_what_two_factors_give() {
    gives(3, plan);
}

#[test]
fn the_page_tells_what_a_short_tree_is() {
    gives(5, plan_short);
}

#[test]
fn the_page_tells_what_weights_give() {
    gives(7, plan_weighted);
}

/// A net stands at this place of the blocks, and what is given for it behind it.
fn gives(at: usize, planner: fn(&[u8], &mut [u8]) -> Result<Plan, Refusal>) {
    let blocks = blocks();
    let Some([net, listing]) = blocks.get(at..at + 2) else {
        panic!("a net and its listing are due")
    };
    let mut out = [0; LISTING_LENGTH];
    let planned = planner(net.as_bytes(), &mut out).unwrap();
    assert_eq!(&out[..planned.bytes], listing.as_bytes());
}

/// The rows of the section's table of scores: A, B, and the scores of two trees of
/// one net with a cap of 0.
#[test]
fn the_page_tells_what_scores_are() {
    let blocks = blocks();
    let net = blocks[5].as_bytes();
    let mut first = [0; LISTING_LENGTH];
    let planned = plan(net, &mut first).unwrap();
    let trees = [&first[..planned.bytes], blocks[6].as_bytes()];
    let (_, table) = PAGE.split_once("\n### Scores\n").expect("the scores");
    let rows: Vec<Vec<f64>> = table.lines().filter_map(numbers).collect();
    assert_eq!(rows.len(), 5);
    for row in rows {
        for (tree, told) in trees.iter().zip(&row[2..]) {
            let found = score(net, tree, row[0] as i64, row[1] as i64, 0).unwrap();
            assert_eq!(found.to_bits(), told.to_bits());
        }
    }
    let (net, listing) = (blocks[3].as_bytes(), blocks[4].as_bytes());
    for (cap, told) in [(20, -6.0), (30, 4.0), (CAP_LIMIT, 4.0)] {
        assert_eq!(score(net, listing, 1024, 1024, cap), Ok(told));
    }
}

/// The four numbers that a row begins with.
fn numbers(line: &str) -> Option<Vec<f64>> {
    let cells = line.strip_prefix("| ")?.split(" | ").take(4);
    let numbers: Option<Vec<f64>> = cells.map(|cell| cell.parse().ok()).collect();
    numbers.filter(|row| row.len() == 4)
}

/// The section's last two blocks: its first net and listing without sink 1.
#[test]
fn the_page_tells_what_a_deletion_leaves() {
    let blocks = blocks();
    let (net, listing) = (blocks[0].as_bytes(), blocks[1].as_bytes());
    let [shorter_net, shorter_listing] = &blocks[9..11] else {
        panic!("the shorter net and its listing are due")
    };
    let mut net_out = [0; NET_LENGTH];
    let mut listing_out = [0; LISTING_LENGTH];
    let deletion = delete_pin(net, listing, 1, &mut net_out, &mut listing_out).unwrap();
    assert_eq!(&net_out[..deletion.net_bytes], shorter_net.as_bytes());
    assert_eq!(
        &listing_out[..deletion.listing_bytes],
        shorter_listing.as_bytes()
    );
}
