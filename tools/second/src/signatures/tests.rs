//! The sources as they are, then copies with one difference planted.

use super::*;

fn sources() -> Sources {
    Sources::read(Path::new(concat!(env!("CARGO_MANIFEST_DIR"), "/../.."))).unwrap()
}

type File = fn(&mut Sources) -> &mut String;

/// The differences once a text of one file is replaced.
fn planted(file: File, old: &str, new: &str) -> Vec<String> {
    planted_behind("", file, old, new)
}

/// Where it first stands behind another.
fn planted_behind(before: &str, file: File, old: &str, new: &str) -> Vec<String> {
    let mut sources = sources();
    let text = file(&mut sources);
    let Some(from) = text.find(before) else {
        panic!("{before} does not stand there");
    };
    let rest = text.split_off(from);
    assert!(rest.contains(old), "{old} does not stand there");
    *text += &rest.replacen(old, new, 1);
    compare(&sources).differences
}

/// What stands before the first function that is called from outside.
const EXPORTED: &str = "extern \"C\" fn ";
/// And before the one with two outputs, and a value between them and the texts.
const DELETION: &str = "fn repeater_tree_delete_pin(";

/// A file to plant in, for each of these.
macro_rules! files {
    ($($name:ident),*) => {
        $(fn $name(s: &mut Sources) -> &mut String {
            &mut s.$name
        })*
    };
}

files!(library, header, calls, wrapper, manifest, refusals, words);

/// The file of limits that has the pin limit.
fn limits(s: &mut Sources) -> &mut String {
    let all = &mut s.limits;
    all.iter_mut().find(|l| l.contains("PIN_LIMIT: ")).unwrap()
}

const WRITER: &str = "crates/writing/src/write_listing.rt";
const PRODUCT: &str = "crates/quantities/src/wire_factor.rt";
const PAIR: &str = "crates/quantities/src/metal_pair.rt";
const MEASURES: &str = "crates/tree/src/measure.rt";

fn writer(s: &mut Sources) -> &mut String {
    s.code.get_mut(WRITER).unwrap()
}

fn product(s: &mut Sources) -> &mut String {
    s.code.get_mut(PRODUCT).unwrap()
}

fn pair(s: &mut Sources) -> &mut String {
    s.code.get_mut(PAIR).unwrap()
}

fn measures(s: &mut Sources) -> &mut String {
    s.code.get_mut(MEASURES).unwrap()
}

/// Each planted difference is told, in these words.
fn told(differences: Vec<String>, words: &str) {
    let found = differences.iter().any(|d| d.contains(words));
    assert!(found, "{words} is not in {differences:?}");
}

#[test]
fn the_sources_agree() {
    let report = compare(&sources());
    assert_eq!(report.differences, [""; 0]);
    let exported = sources().library.matches("#[unsafe(no_mangle)]").count();
    assert_eq!(report.functions, exported);
    assert!(report.limits >= 8);
    assert_eq!(report.places, 10);
    // one for each refusal, two for the wrong number of children
    assert_eq!(report.wordings, 17);
}

#[test]
fn other_words_are_told() {
    told(
        planted(header, "the parent is a sink", "a sink is a parent"),
        "refusal 8 is Some(\"a sink is a parent\")",
    );
    told(
        planted(
            refusals,
            "the root has not exactly one child",
            "the root is bare",
        ),
        "callers/rust/src/refusal.rs: refusal 9 is Some(\"the root is bare\")",
    );
    let twice = planted(words, "a number is out of range", "a number is too large");
    assert_eq!(twice.len(), 2, "{twice:?}");
    told(
        planted(refusals, "(16, _) =>", "(17, _) =>"),
        "refusal 16 is None",
    );
    told(
        planted(header, "case REPEATER_TREE_ONLY_SINK:", "case 16:"),
        "refusal 16 is None",
    );
    told(
        planted(header, "NOT_A_SINK = 15", "NOT_A_SINK = 14"),
        "callers/c/repeater_tree.h: refusal 15 is None",
    );
}

#[test]
fn another_order_is_told() {
    let swapped = planted(
        header,
        "int64_t *slack, uint64_t *wire",
        "uint64_t *wire, int64_t *slack",
    );
    told(
        swapped,
        "has `wire: *mut u64` where crates/repeater_tree_c/src/lib.rt has `slack: *mut i64`",
    );
    let swapped = planted(
        calls,
        "text: *mut u8,\n        line: *mut usize,",
        "line: *mut usize,\n        text: *mut u8,",
    );
    told(swapped, "has `line: *mut usize` where");
    for call in ["judge", "score", "delete_pin"] {
        let name = format!("repeater_tree_{call}");
        let swapped = planted_behind(
            &format!("fn {name}("),
            library,
            "net: &[u8],\n    listing: &[u8],",
            "listing: &[u8],\n    net: &[u8],",
        );
        told(swapped, &format!("{name} has `net: *const u8` where"));
    }
    let swapped = planted(
        header,
        "int64_t alpha_1024ths, int64_t beta_1024ths",
        "int64_t beta_1024ths, int64_t alpha_1024ths",
    );
    told(swapped, "has `beta_1024ths: i64` where");
}

/// Its two outputs, its two lengths, and the sink behind the outputs.
#[test]
fn another_order_of_a_deletion_is_told() {
    let swapped = planted_behind(
        DELETION,
        library,
        "net_out: &mut [u8],\n    listing_out: &mut [u8],",
        "listing_out: &mut [u8],\n    net_out: &mut [u8],",
    );
    told(swapped, "repeater_tree_delete_pin has `net_out: *mut u8`");
    let swapped = planted(
        header,
        "size_t *net_bytes, size_t *listing_bytes",
        "size_t *listing_bytes, size_t *net_bytes",
    );
    told(swapped, "has `listing_bytes: *mut usize` where");
    let behind = planted(
        calls,
        "sink: usize,\n        net_out: *mut u8,\n        net_out_length: usize,",
        "net_out: *mut u8,\n        net_out_length: usize,\n        sink: usize,",
    );
    told(
        behind,
        "has `net_out: *mut u8` where crates/repeater_tree_c/src/lib.rt has `sink: usize`",
    );
}

#[test]
fn another_type_is_told() {
    told(
        planted(header, "uint8_t *text", "int64_t *text"),
        "`text: *mut i64`",
    );
    told(
        planted(header, "size_t net_length", "uint64_t net_length"),
        "`net_length: u64`",
    );
    told(
        planted(header, "const uint8_t *net", "uint8_t *net"),
        "`net: *mut u8`",
    );
    told(
        planted(
            header,
            "uint8_t repeater_tree_plan(",
            "size_t repeater_tree_plan(",
        ),
        "`-> usize`",
    );
    told(
        planted(calls, "best: *mut i64", "best: *mut u64"),
        "`best: *mut u64`",
    );
    told(
        planted(calls, "bytes: *mut usize", "bytes: usize"),
        "`bytes: usize`",
    );
    told(
        planted(calls, "cap: i64", "cap: u64"),
        "`cap: u64` where crates/repeater_tree_c/src/lib.rt has `cap: i64`",
    );
    told(
        planted(calls, "score: *mut f64", "score: *mut f32"),
        "`score: *mut f32`",
    );
    told(
        planted(calls, "sink: usize", "sink: u32"),
        "`sink: u32` where crates/repeater_tree_c/src/lib.rt has `sink: usize`",
    );
    told(
        planted(header, "int64_t cap", "int64_t *cap"),
        "`cap: *mut i64`",
    );
    told(
        planted(header, "double *score", "int64_t *score"),
        "`score: *mut i64`",
    );
    told(
        planted(header, "double *score", "float *score"),
        "`score: *mut float` where crates/repeater_tree_c/src/lib.rt has `score: *mut f64`",
    );
    told(
        planted(header, "size_t sink", "int64_t sink"),
        "`sink: i64` where crates/repeater_tree_c/src/lib.rt has `sink: usize`",
    );
    told(
        planted(header, "size_t sink", "size_t *sink"),
        "`sink: *mut usize`",
    );
    told(
        planted_behind(DELETION, library, "sink: usize", "sink: &usize"),
        "`sink: usize` where crates/repeater_tree_c/src/lib.rt has `sink: *const usize`",
    );
    told(
        planted_behind(DELETION, library, "net_out: &mut [u8]", "net_out: &[u8]"),
        "has `net_out: *const u8`",
    );
    told(
        planted_behind(EXPORTED, library, "out: &mut [u8]", "out: &[u8]"),
        "`out: *const u8`",
    );
    told(
        planted_behind(EXPORTED, library, "wire: &mut u64", "wire: &mut i64"),
        "`wire: *mut i64`",
    );
    told(
        planted_behind(EXPORTED, library, ") -> u8", ") -> usize"),
        "`-> usize`",
    );
}

/// Whichever function it is, in each of the three files.
#[test]
fn another_type_is_told_of_every_function() {
    let all = functions::of_rattle(&sources().library);
    for name in all.iter().map(|f| &f.name) {
        let before = format!("fn {name}(");
        for differences in [
            planted_behind(&before, library, "text: &mut u8", "text: &mut u64"),
            planted_behind(&before, calls, "line: *mut usize", "line: *mut u64"),
            planted_behind(&format!("{name}("), header, "size_t *line", "size_t *place"),
            planted_behind(
                &format!("{name}_lent("),
                header,
                "uint8_t *text",
                "double *text",
            ),
        ] {
            told(differences, &format!("{name} has `"));
        }
    }
}

#[test]
fn another_name_is_told() {
    told(
        planted(header, "uint64_t *wire", "uint64_t *length"),
        "`length: *mut u64`",
    );
    told(
        planted(calls, "fn repeater_tree_judge", "fn repeater_tree_measure"),
        "repeater_tree_judge is missing",
    );
    told(
        planted(library, "fn repeater_tree_plan", "fn repeater_tree_draw"),
        "repeater_tree_plan is not in",
    );
}

#[test]
fn a_missing_parameter_is_told() {
    told(
        planted(header, ", size_t *bytes", ""),
        "has `nothing` where",
    );
    told(
        planted_behind(EXPORTED, library, "    bytes: &mut usize,\n", ""),
        "has `bytes: *mut usize` where",
    );
}

/// A function is held to the source whatever its name: one that only the source
/// has is missing in the header, as an inline function, and in the wrapper, which
/// does not offer it, and does not mean its inline function; one that it has not
/// is told too.
#[test]
fn a_function_more_is_told() {
    const MORE: &str = "repeater_tree_plan_more";
    let declared = |source: &str| {
        let from = source.find("fn repeater_tree_plan(").unwrap();
        let to = from + source[from..].find("-> u8").unwrap() + "-> u8".len();
        source[from..to].replace("repeater_tree_plan", MORE)
    };
    let mut rattle = sources();
    let more = declared(&rattle.library);
    rattle.library += &format!("#[unsafe(no_mangle)]\npub extern \"C\" {more}\n{{\n}}\n");
    let report = compare(&rattle);
    assert_eq!(report.functions, compare(&sources()).functions + 1);
    let differences = report.differences;
    assert_eq!(differences.len(), 5, "{differences:?}");
    let offered = format!("{WRAPPER}: no function plan_more");
    assert!(differences.contains(&offered), "{differences:?}");
    for file in [HEADER, CALLS, "the inline functions of"] {
        let missing =
            |d: &String| d.starts_with(file) && d.ends_with(&format!("{MORE} is missing"));
        assert!(differences.iter().any(missing), "{differences:?}");
    }
    told(
        differences,
        &format!("{MORE} does not mean its inline function"),
    );
    let mut rust = sources();
    let more = declared(&rust.calls);
    rust.calls += &format!("extern \"C\" {{\n{more};\n}}\n");
    told(compare(&rust).differences, &format!("{MORE} is not in"));
}

/// Whichever call it is, the wrapper offers it.
#[test]
fn a_call_that_the_wrapper_lacks_is_told() {
    for function in functions::of_rattle(&sources().library) {
        let name = function.name.trim_start_matches(FUNCTION_PREFIX);
        let (old, new) = (format!("pub fn {name}("), format!("fn {name}("));
        told(
            planted(wrapper, &old, &new),
            &format!("{WRAPPER}: no function {name}"),
        );
    }
}

/// The last declaration of a function in the header is its inline function.
#[test]
fn an_inline_function_that_differs_is_told() {
    let differs = planted(
        header,
        "repeater_tree_judge_lent(\n    const uint8_t *net, size_t net_length,",
        "repeater_tree_judge_lent(\n    const uint8_t *net, uint64_t net_length,",
    );
    told(differs, "the inline functions of callers/c/repeater_tree.h");
    told(
        planted(
            header,
            "#define repeater_tree_plan repeater_tree_plan_lent\n",
            "",
        ),
        "repeater_tree_plan does not mean its inline function",
    );
}

#[test]
fn another_limit_is_told() {
    let far = "REPEATER_TREE_PIN_LIMIT is 40000000, ";
    told(
        planted(limits, "40_000_000", "50_000_000"),
        &format!("{far}crates/*/src/limits.rt has 50000000"),
    );
    told(
        planted(wrapper, "40_000_000", "4_000_000"),
        &format!("{far}callers/rust/src/lib.rs has 4000000"),
    );
    told(
        planted(header, "PIN_LIMIT 40000000", "PIN_LIMIT 4000000"),
        "PIN_LIMIT is 4000000, ",
    );
    told(
        planted(
            header,
            "define REPEATER_TREE_STACK ",
            "define REPEATER_TREE_STACK 9",
        ),
        "REPEATER_TREE_STACK is 9",
    );
    told(
        planted(limits, "pub const PIN_LIMIT", "const FAR"),
        &format!("{far}crates/*/src/limits.rt has no PIN_LIMIT"),
    );
    told(
        planted(wrapper, "pub const NET_LENGTH:", "pub const LONGEST:"),
        "no REPEATER_TREE_LONGEST",
    );
}

#[test]
fn another_limit_of_scores_is_told() {
    for (name, old, new, value) in [
        ("PARTS", " 1024", " 1000", "1000"),
        (
            "CAP_LIMIT",
            " 1000000000000",
            " 100000000000",
            "100000000000",
        ),
        (
            "LATE_LIMIT",
            " 1000000000000",
            " 1000000000001",
            "1000000000001",
        ),
    ] {
        let before = format!("#define REPEATER_TREE_{name} ");
        let differences = planted_behind(&before, header, old, new);
        assert_eq!(differences.len(), 2, "{differences:?}");
        told(
            differences,
            &format!("REPEATER_TREE_{name} is {value}, {LIMITS} has "),
        );
    }
    told(
        planted_behind(
            "pub const LATE_LIMIT",
            wrapper,
            "= 1_000_000_000_000;",
            "= 999_999_999_999;",
        ),
        "REPEATER_TREE_LATE_LIMIT is 1000000000000, callers/rust/src/lib.rs has 999999999999",
    );
}

/// Whether the three have it or not: it is given to all of them, and then the
/// header's is another.
#[test]
fn another_limit_of_weights_is_told() {
    let mut sources = sources();
    let stated = "pub const WEIGHT_LIMIT: u64 = 1_000;";
    sources.wrapper += stated;
    sources.limits.push(stated.to_string());
    sources.header += "#define REPEATER_TREE_WEIGHT_LIMIT 1000\n";
    assert_eq!(compare(&sources).differences, [""; 0]);
    sources.header += "#define REPEATER_TREE_WEIGHT_LIMIT 1001\n";
    for file in [WRAPPER, LIMITS] {
        told(
            compare(&sources).differences,
            &format!("REPEATER_TREE_WEIGHT_LIMIT is 1001, {file} has 1000"),
        );
    }
}

/// The same name in two crates with two values.
#[test]
fn limits_that_differ_are_told() {
    let mut sources = sources();
    sources
        .limits
        .push("pub const PIN_LIMIT: u64 = 1;".to_string());
    let differences = compare(&sources).differences;
    told(
        differences,
        "crates/*/src/limits.rt: PIN_LIMIT is 40000000 and 1",
    );
}

#[test]
fn another_version_is_told() {
    told(
        planted(header, "VERSION_MAJOR 0", "VERSION_MAJOR 9"),
        "version 9.",
    );
    told(
        planted(manifest, "version = \"0", "version = \"9"),
        "Cargo.toml has 9.",
    );
}

/// In a file that is not listed, as a path, once more, and no longer.
#[test]
fn another_place_that_takes_a_length_is_told() {
    let other = format!("{MEASURES}: a length's number is taken 1 times, 0 listed");
    for taken in ["wire.nanometres()", "Length::nanometres(wire)"] {
        told(planted(measures, "Time::of(0)", taken), &other);
    }
    told(
        planted(writer, "n as i64", "wire.nanometres() as i64"),
        &format!("{WRITER}: a length's number is taken 2 times, 1 listed"),
    );
    told(
        planted(writer, "wire.nanometres()", "0"),
        &format!("{WRITER}: a length's number is taken 0 times, 1 listed"),
    );
}

#[test]
fn a_listed_file_that_is_gone_is_told() {
    let mut sources = sources();
    sources.code.remove(WRITER);
    told(
        compare(&sources).differences,
        &format!("{WRITER}: is listed and not there"),
    );
}

/// In the product without its factor, in the pair without it, and in a file
/// that is listed.
#[test]
fn a_time_made_of_a_length_is_told() {
    let made = "a time is made of a length's number";
    told(
        planted(
            product,
            "let product = self.0 * length.nanometres();\n        Time::of(product as i64)",
            "Time::of((length.nanometres()) as i64)",
        ),
        &format!("{PRODUCT}: {made}"),
    );
    told(
        planted(
            pair,
            "self.vertical.delay(span(p.y, q.y))",
            "Time::of(span(p.y, q.y).nanometres() as i64)",
        ),
        &format!("{PAIR}: {made}"),
    );
    told(
        planted(
            writer,
            "wire.nanometres() as i64",
            "Time::of(wire.nanometres() as i64).attoseconds()",
        ),
        &format!("{WRITER}: {made}"),
    );
}
