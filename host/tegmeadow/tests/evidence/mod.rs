//! The independent account (crates/evidence): its logs and what it says of them.

#![allow(dead_code)] // each test uses some of it

use std::path::{Path, PathBuf};

pub fn folder() -> PathBuf {
    Path::new(env!("CARGO_MANIFEST_DIR")).join("../../crates/evidence")
}

/// The file of a log that the account names.
pub fn path(name: &str) -> PathBuf {
    folder().join("data").join(name)
}

pub fn read(name: &str) -> Vec<u8> {
    std::fs::read(path(name)).unwrap_or_else(|e| panic!("{name}: {e}"))
}

/// Each log's name and the lines about it.
pub fn sections() -> Vec<(String, Vec<String>)> {
    let text = std::fs::read_to_string(folder().join("stdout")).expect("the account");
    let mut sections: Vec<(String, Vec<String>)> = Vec::new();
    for line in text.lines() {
        match line.strip_prefix("== ") {
            Some(name) => sections.push((name.to_string(), Vec::new())),
            None => sections
                .last_mut()
                .expect("a section")
                .1
                .push(line.to_string()),
        }
    }
    assert!(sections.len() > 400);
    sections
}
