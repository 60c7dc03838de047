//! The command line.

use crate::input::Source;
use std::ffi::OsString;

pub const HELP: &str = "\
Usage: tegmeadow [--json] check [FILE..]
       tegmeadow [--json] list [FILE]
       tegmeadow [--json] show [FILE]

Reads MySQL binlog files of version 4 (row logging, server 5.6.1 or later,
up to 1 GiB). Without FILE, or where it is -, standard input is read.

  check  one line a file: accepted with the counts of events and row changes,
         or refused with the number, its meaning, the place and the event there
  list   a line for each row change: event type, place of the event, of its
         table map, of the before image or 0, of the after image or 0
  show   every row change in the ### form of mysqlbinlog -v

  --json     one JSON object a line. Columns count from 1. Bytes that are not
             UTF-8 are in hex, in a field of their own (hex, database_hex,
             table_hex); a float that is no number has its bits instead
  --help     this text
  --version  the version

Exit status: 0 accepted, 1 refused, 2 wrong use or a file that can't be read;
of several files the worst.
";

#[derive(Clone, Copy, PartialEq, Eq)]
pub enum Command {
    Check,
    List,
    Show,
}

impl Command {
    /// What it does, for the progress line.
    pub fn doing(self) -> &'static str {
        match self {
            Command::Check => "checking",
            Command::List => "listing",
            Command::Show => "showing",
        }
    }
}

/// What is to be done, on what.
pub struct Job {
    pub command: Command,
    pub json: bool,
    pub sources: Vec<Source>,
}

pub enum Asked {
    Do(Job),
    Say(String),
}

pub fn parse(words: impl Iterator<Item = OsString>) -> Result<Asked, String> {
    let (mut command, mut json, mut options) = (None, false, true);
    let mut sources = Vec::new();
    for word in words {
        match word.to_str() {
            Some("--") if options => options = false,
            Some("--help" | "-h") if options => return Ok(Asked::Say(HELP.into())),
            Some("--version" | "-V") if options => {
                return Ok(Asked::Say(
                    concat!("tegmeadow ", env!("CARGO_PKG_VERSION"), "\n").into(),
                ))
            }
            Some("--json") if options => json = true,
            Some("-") if command.is_some() => sources.push(Source::Standard),
            Some(text) if options && text.starts_with('-') => {
                return Err(format!("unknown option {text}"))
            }
            text if command.is_none() => command = Some(command_of(text)?),
            _ => sources.push(Source::File(word.into())),
        }
    }
    let command = command.ok_or("no command")?;
    if sources.len() > 1 && command != Command::Check {
        return Err("one FILE at most".into());
    }
    if sources.is_empty() {
        sources.push(Source::Standard);
    }
    Ok(Asked::Do(Job {
        command,
        json,
        sources,
    }))
}

fn command_of(word: Option<&str>) -> Result<Command, String> {
    match word {
        Some("check") => Ok(Command::Check),
        Some("list") => Ok(Command::List),
        Some("show") => Ok(Command::Show),
        Some(other) => Err(format!("unknown command {other}")),
        None => Err("unknown command".into()),
    }
}
