//! include/tegmeadow.h, src/ffi.rs and the archive declare the same functions.

use std::collections::BTreeSet;
use std::path::Path;
use std::process::Command;

/// A function's name, the name and type of each parameter, and its result, in Rust's words.
#[derive(Clone, Debug, PartialEq, Eq)]
struct Declaration {
    name: String,
    parameters: Vec<(String, String)>,
    result: String,
}

fn file(path: &str) -> String {
    let path = Path::new(env!("CARGO_MANIFEST_DIR")).join(path);
    std::fs::read_to_string(&path).unwrap_or_else(|e| panic!("{}: {e}", path.display()))
}

fn header() -> String {
    file("../../include/tegmeadow.h")
}

fn archive_symbols() -> BTreeSet<String> {
    let nm = Command::new("nm")
        .args(["-g", "--defined-only", env!("TEGMEADOW_ARCHIVE")])
        .output();
    let nm = nm.expect("nm runs");
    assert!(nm.status.success());
    let text = String::from_utf8(nm.stdout).expect("symbols are text");
    let name = |line: &str| {
        line.split_once(" T ")
            .map(|(_, name)| name.trim().to_string())
    };
    text.lines().filter_map(name).collect()
}

/// The text without what stands from `open` to `close`.
fn without(text: &str, open: &str, close: &str) -> String {
    let mut parts = text.split(open);
    let first = parts.next().unwrap_or_default().to_string();
    parts.fold(first, |kept, part| {
        kept + part.split_once(close).map_or("", |(_, after)| after)
    })
}

/// Splits `result name(parameters)` or `name(parameters) -> result`.
fn around_parentheses(text: &str) -> (&str, &str, &str) {
    let (before, rest) = text
        .split_once('(')
        .unwrap_or_else(|| panic!("no ( in {text:?}"));
    let (inside, after) = rest
        .rsplit_once(')')
        .unwrap_or_else(|| panic!("no ) in {text:?}"));
    (before.trim(), inside, after.trim())
}

fn in_c(text: &str) -> Vec<Declaration> {
    let text = without(&without(text, "/*", "*/"), "#", "\n").replace("extern \"C\" {", "");
    let one = |text: &str| {
        let (before, inside, after) = around_parentheses(text);
        assert_eq!(after, "");
        let (result, name) = before.rsplit_once(' ').expect("a result and a name");
        Declaration {
            name: name.to_string(),
            parameters: inside.split(',').map(c_parameter).collect(),
            result: rust_type(result),
        }
    };
    text.split(';')
        .filter(|text| text.contains('('))
        .map(one)
        .collect()
}

/// `const uint8_t *log`, `uint32_t entry[5]` or `size_t k`.
fn c_parameter(text: &str) -> (String, String) {
    let spaced = text.replace('*', " * ");
    let mut words: Vec<&str> = spaced.split_whitespace().collect();
    let name = words.pop().expect("a name");
    let (name, count) = match name.split_once('[') {
        Some((name, count)) => (name, Some(count.trim_end_matches(']'))),
        None => (name, None),
    };
    let is_const = words.first() == Some(&"const");
    let base = words[usize::from(is_const)];
    let stars = words.len() - usize::from(is_const) - 1;
    let pointer = if is_const { "*const" } else { "*mut" };
    let of = rust_type(base);
    let meant = match (stars, count) {
        (0, None) => {
            assert!(!is_const, "{text}");
            of
        }
        (1, None) => format!("{pointer} {of}"),
        (0, Some(count)) => format!("{pointer} [{of}; {count}]"),
        _ => panic!("parameter {text:?}"),
    };
    (name.to_string(), meant)
}

fn rust_type(c: &str) -> String {
    let word = match c.trim() {
        "uint8_t" => "u8",
        "uint32_t" => "u32",
        "uint64_t" => "u64",
        "size_t" => "usize",
        "void" => "()",
        other => panic!("type {other:?}"),
    };
    word.to_string()
}

fn in_rust(text: &str) -> Vec<Declaration> {
    let (_, rest) = text.split_once("extern \"C\" {").expect("a foreign block");
    let (block, _) = rest.split_once("\n}").expect("its end");
    let one = |text: &str| {
        let (before, inside, after) = around_parentheses(text.trim_end().trim_end_matches(';'));
        let parameter = |text: &str| {
            let (name, meant) = text.split_once(':').expect("a type");
            (name.trim().to_string(), meant.trim().to_string())
        };
        let parameters = inside.split(',').filter(|text| !text.trim().is_empty());
        Declaration {
            name: before.trim_start_matches("fn ").to_string(),
            parameters: parameters.map(parameter).collect(),
            result: after.strip_prefix("->").map_or("()", str::trim).to_string(),
        }
    };
    block
        .split_inclusive(";\n")
        .filter(|text| text.contains('('))
        .map(one)
        .collect()
}

#[test]
fn the_header_and_the_crate_declare_the_same() {
    let (c, rust) = (in_c(&header()), in_rust(&file("src/ffi.rs")));
    assert!(c.len() >= 12, "{c:?}");
    for (c, rust) in c.iter().zip(&rust) {
        assert_eq!(c, rust);
    }
    assert_eq!(c.len(), rust.len());
}

#[test]
fn the_archive_has_what_is_declared() {
    let declared: BTreeSet<String> = in_c(&header()).into_iter().map(|d| d.name).collect();
    assert_eq!(archive_symbols(), declared);
}

#[test]
fn a_difference_is_noticed() {
    let sound = header();
    let edits = [
        (
            "tegmeadow_check(const uint8_t *log",
            "tegmeadow_check(uint8_t *log",
        ),
        ("uint64_t cell[8]", "uint64_t cell[7]"),
        ("uint32_t tegmeadow_change(", "uint64_t tegmeadow_change("),
        ("size_t side, size_t column", "size_t column, size_t side"),
        ("size_t *events", "uint32_t *events"),
    ];
    for (from, to) in edits {
        let edited = sound.replacen(from, to, 1);
        assert_ne!(edited, sound, "{from}");
        assert_ne!(in_c(&edited), in_c(&sound), "{from}");
    }
}

/// The header's numbers of refusals are the paper's, 1 to 20, each said once.
#[test]
fn the_header_names_each_refusal() {
    let header = header();
    let (_, rest) = header.split_once("/* Refusals").expect("the refusals");
    let (refusals, _) = rest.split_once("/* Kinds").expect("their end");
    let number = |line: &str| line.split_whitespace().nth(2)?.parse::<u32>().ok();
    let defined = refusals.lines().filter(|line| line.starts_with("#define"));
    let numbers: Vec<u32> = defined.filter_map(number).collect();
    assert_eq!(numbers, (1..=20).collect::<Vec<u32>>());
}
