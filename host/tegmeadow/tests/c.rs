//! The header in C and C++, and C programs over the archive.

mod evidence;

use std::fs::File;
use std::path::{Path, PathBuf};
use std::process::{Command, Stdio};
use tegmeadow::{Kind, Log};

fn root() -> PathBuf {
    Path::new(env!("CARGO_MANIFEST_DIR")).join("../..")
}

/// Compiles a program with a compiler and the strictest of its words.
fn compile(compiler: &[&str], source: &str) -> PathBuf {
    let stem = Path::new(source)
        .file_stem()
        .expect("a name")
        .to_string_lossy()
        .into_owned();
    let program = Path::new(env!("CARGO_TARGET_TMPDIR")).join(format!("{stem}-{}", compiler[0]));
    let archive = Path::new(env!("TEGMEADOW_ARCHIVE"))
        .parent()
        .expect("a folder");
    let status = Command::new(compiler[0])
        .args(&compiler[1..])
        .args(["-Wall", "-Wextra", "-pedantic", "-Werror", "-O1"])
        .arg(Path::new(env!("CARGO_MANIFEST_DIR")).join(source))
        .arg("-I")
        .arg(root().join("include"))
        .arg("-L")
        .arg(archive)
        .args(["-ltegmeadow", "-o"])
        .arg(&program)
        .status()
        .expect("the compiler runs");
    assert!(status.success(), "{compiler:?} {source}");
    program
}

const C: [&str; 2] = ["cc", "-std=c99"];
const CPP: [&str; 4] = ["c++", "-std=c++98", "-Wno-long-long", "-xc++"];

/// What the example prints of a log, by the Rust crate.
fn listed(bytes: &[u8]) -> String {
    let changes = match Log::new(bytes).changes() {
        Ok(changes) => changes,
        Err(refusal) => return format!("refused {} at {}\n", refusal.number, refusal.place),
    };
    let line = |change: tegmeadow::Change| {
        let kind = match change.kind() {
            Kind::Write => "write",
            Kind::Update => "update",
            Kind::Delete => "delete",
        };
        let [_, event, map, before, after] = change.entry().0;
        let [database, table] = [change.database(), change.table()].map(String::from_utf8_lossy);
        format!("{kind} {database}.{table} {event} {map} {before} {after}\n")
    };
    changes.map(line).collect()
}

#[test]
fn the_example_lists_a_log_in_c_and_in_cpp() {
    let log = root().join("crates/readlog/stdin");
    let bytes = std::fs::read(&log).expect("the log");
    for compiler in [&C[..], &CPP] {
        let program = compile(compiler, "examples/list.c");
        let run = Command::new(&program)
            .arg(&log)
            .output()
            .expect("the example runs");
        assert_eq!(run.status.code(), Some(0));
        let text = String::from_utf8(run.stdout).expect("text");
        assert_eq!(text, listed(&bytes));
        // (01, Evidence at the desk)
        assert!(
            text.contains(" 389 331 421 427\n") && text.contains(" 667 609 698 0\n"),
            "{text}"
        );
    }
}

/// All questions through the header, of every log that the independent account speaks of.
#[test]
fn the_questions_in_c_answer_as_the_account() {
    let program = compile(&C, "tests/account.c");
    let names = File::open(evidence::folder().join("args")).expect("the names of the logs");
    let run = Command::new(program)
        .current_dir(evidence::folder().join("data"))
        .stdin(Stdio::from(names))
        .output()
        .expect("the program runs");
    assert!(run.status.success());
    let text = String::from_utf8(run.stdout).expect("text");
    let mut found = text.lines();
    for (name, lines) in evidence::sections() {
        assert_eq!(found.next(), Some(format!("== {name}").as_str()));
        for line in lines {
            assert_eq!(found.next(), Some(line.as_str()), "{name}");
        }
    }
    assert_eq!(found.next(), None);
}
