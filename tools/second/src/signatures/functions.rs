//! The functions that a source declares, in one form: each parameter by name
//! and type, the types as Rust spells them.

use super::words::words;

/// An inline function of the header has the name of the archive's function
/// with this behind it.
const WRAPPER: &str = "_lent";

/// By name and type.
type Parameter = (String, String);

#[derive(Clone, Debug)]
pub struct Function {
    pub name: String,
    parameters: Vec<Parameter>,
    result: String,
}

impl Function {
    /// The parameters in order, then the result.
    pub fn items(&self) -> Vec<String> {
        let mut items: Vec<String> = self
            .parameters
            .iter()
            .map(|(name, kind)| format!("{name}: {kind}"))
            .collect();
        items.push(format!("-> {}", self.result));
        items
    }

    pub fn is_wrapper(&self) -> bool {
        self.name.ends_with(WRAPPER)
    }

    pub fn without_suffix(mut self) -> Function {
        if let Some(name) = self.name.strip_suffix(WRAPPER) {
            self.name = name.to_string();
        }
        self
    }
}

/// Whether the header makes the name mean the inline function.
pub fn is_renamed(header: &str, name: &str) -> bool {
    let line = format!("#define {name} {name}{WRAPPER}");
    header.lines().any(|l| l == line)
}

/// `pub extern "C" fn`, a lent slice as a pointer and a length.
pub fn of_rattle(source: &str) -> Vec<Function> {
    after(&words(source), ["extern", "\"C\"", "fn"])
        .map(|rest| read(rest, rattle_parameter))
        .collect()
}

/// What an `extern "C"` block declares.
pub fn of_rust(source: &str) -> Vec<Function> {
    let words = words(source);
    let block = after(&words, ["extern", "\"C\"", "{"]).map(|rest| before(rest, "}"));
    block
        .flat_map(|block| block.split(|w| w == ";"))
        .filter(|declared| declared.first().is_some_and(|w| w == "fn"))
        .map(|declared| read(&declared[1..], rust_parameter))
        .collect()
}

/// Whether a Rust source has a `pub fn` of this name.
pub fn is_offered(source: &str, name: &str) -> bool {
    after(&words(source), ["pub", "fn", name]).next().is_some()
}

/// What follows these three words, wherever they stand.
fn after<'a>(words: &'a [String], three: [&'a str; 3]) -> impl Iterator<Item = &'a [String]> {
    let all = words.windows(3).enumerate();
    all.filter(move |(_, w)| **w == three)
        .map(|(at, _)| &words[at + 3..])
}

fn before<'a>(words: &'a [String], end: &str) -> &'a [String] {
    let length = words.iter().position(|w| w == end).unwrap_or(words.len());
    &words[..length]
}

/// NAME(PARAMETERS) -> RESULT
fn read(words: &[String], parameter: fn(&str, &[String]) -> Vec<Parameter>) -> Function {
    let given = before(words, ")");
    let parameters = given[2..]
        .split(|w| w == ",")
        .filter(|p| !p.is_empty())
        .flat_map(|p| parameter(&p[0], &p[2..]))
        .collect();
    let result = match &words[given.len() + 1..] {
        [dash, arrow, result, ..] if dash == "-" && arrow == ">" => result.clone(),
        _ => "()".to_string(),
    };
    Function {
        name: words[0].clone(),
        parameters,
        result,
    }
}

fn rust_parameter(name: &str, kind: &[String]) -> Vec<Parameter> {
    let kind = match kind {
        [star, share, of] if star == "*" => format!("*{share} {of}"),
        _ => kind.concat(),
    };
    vec![(name.to_string(), kind)]
}

/// `&T` is `*const T`, `&mut T` is `*mut T`; `&[T]` and `&mut [T]` are such a
/// pointer, then the length; any other type goes by value.
fn rattle_parameter(name: &str, kind: &[String]) -> Vec<Parameter> {
    let words: Vec<&str> = kind.iter().map(String::as_str).collect();
    let lent = |share: &str, of: &str| (name.to_string(), format!("*{share} {of}"));
    let length = (format!("{name}_length"), "usize".to_string());
    match words[..] {
        ["&", "[", of, "]"] => vec![lent("const", of), length],
        ["&", "mut", "[", of, "]"] => vec![lent("mut", of), length],
        ["&", "mut", of] => vec![lent("mut", of)],
        ["&", of] => vec![lent("const", of)],
        _ => vec![(name.to_string(), words.concat())],
    }
}

/// Prototypes and inline functions: a name after a type and before its
/// parameters.
pub fn of_header(source: &str) -> Vec<Function> {
    let code: String = source
        .lines()
        .filter(|line| !line.starts_with('#'))
        .flat_map(|line| [line, "\n"])
        .collect();
    let words = words(&code);
    let mut found = Vec::new();
    for at in 1..words.len().saturating_sub(1) {
        let result = type_of_c(&words[at - 1]);
        if let (Some(result), "(") = (result, words[at + 1].as_str()) {
            let given = before(&words[at + 2..], ")");
            let parameters = given.split(|w| w == ",").map(c_parameter).collect();
            found.push(Function {
                name: words[at].clone(),
                parameters,
                result: result.to_string(),
            });
        }
    }
    found
}

fn c_parameter(words: &[String]) -> Parameter {
    let words: Vec<&str> = words.iter().map(String::as_str).collect();
    let known = |of| type_of_c(of).unwrap_or(of);
    match words[..] {
        ["const", of, "*", name] => (name.into(), format!("*const {}", known(of))),
        [of, "*", name] => (name.into(), format!("*mut {}", known(of))),
        [of, name] => (name.into(), known(of).into()),
        _ => (words.join(" "), "?".into()),
    }
}

fn type_of_c(word: &str) -> Option<&str> {
    Some(match word {
        "uint8_t" => "u8",
        "uint64_t" => "u64",
        "int64_t" => "i64",
        "size_t" => "usize",
        "double" => "f64",
        _ => return None,
    })
}
