//! The program's messages and exit statuses.

mod common;
#[path = "../../tegmeadow/tests/evidence/mod.rs"]
mod evidence;

use common::{extremes, length_at, log_004, program, repeated, run, run_on, text};
use std::ffi::OsString;
use std::fs::File;
use std::io::Read;
use std::path::Path;
use std::process::Stdio;

/// The numbers of `refused N at P` or `accepted E C`.
fn numbers(line: &str) -> Vec<usize> {
    line.split(' ')
        .filter_map(|word| word.parse().ok())
        .collect()
}

/// Whether a line of `check` says what the account says.
fn says(line: &str, name: &str, account: &str) -> bool {
    let [a, b] = numbers(account)[..] else {
        return false;
    };
    match account.split(' ').next() {
        Some("accepted") => line == format!("{name}: accepted, {a} events, {b} changes"),
        _ => {
            line.starts_with(&format!("{name}: refused {a} ("))
                && line.contains(&format!(") at {b} ({b:#x})"))
        }
    }
}

#[test]
fn check_says_of_each_log_what_the_account_says() {
    let sections = evidence::sections();
    let judged = || sections.iter().filter(|(_, lines)| lines[0] != "too long");
    let mut words: Vec<OsString> = vec!["check".into()];
    words.extend(judged().map(|(name, _)| evidence::path(name).into()));
    let checked = run(&words);
    assert_eq!(checked.status.code(), Some(1));
    let checked = text(&checked.stdout);
    assert_eq!(checked.lines().count(), judged().count());
    for (line, (name, account)) in checked.lines().zip(judged()) {
        let path = evidence::path(name);
        assert!(
            says(line, &path.to_string_lossy(), &account[0]),
            "{line}\n{}",
            account[0]
        );
        let one = run(["check".as_ref(), path.as_os_str()]);
        let expected = i32::from(account[0].starts_with("refused"));
        assert_eq!(one.status.code(), Some(expected), "{name}");
    }
}

#[test]
fn list_prints_the_accounts_listing() {
    let is_listed = |line: &&String| line.starts_with(|sign: char| sign.is_ascii_digit());
    for (name, account) in evidence::sections() {
        let listed = run(["list".as_ref(), evidence::path(&name).as_os_str()]);
        let expected: Vec<&String> = account.iter().filter(is_listed).collect();
        if account[0].starts_with("accepted") {
            assert_eq!(
                text(&listed.stdout).lines().collect::<Vec<_>>(),
                expected,
                "{name}"
            );
            assert_eq!(listed.status.code(), Some(0), "{name}");
        } else if account[0].starts_with("refused") {
            assert!(listed.stdout.is_empty(), "{name}");
            let said = format!(": refused {} (", numbers(&account[0])[0]);
            assert!(text(&listed.stderr).contains(&said), "{name}");
            assert_eq!(listed.status.code(), Some(1), "{name}");
        }
    }
}

#[test]
fn the_log_of_004() {
    let log = log_004();
    let path = log.to_string_lossy();
    let checked = run(["check", &path]);
    assert_eq!(
        text(&checked.stdout),
        format!("{path}: accepted, 13 events, 2 changes\n")
    );
    // (01, Evidence at the desk)
    let listed = "31 389 331 421 427\n32 667 609 698 0\n";
    assert_eq!(text(&run(["list", &path]).stdout), listed);
    let bytes = std::fs::read(&log).expect("the log");
    assert_eq!(text(&run_on(["list"], &bytes).stdout), listed);
    assert_eq!(text(&run_on(["list", "-"], &bytes).stdout), listed);
    let checked = run_on(["check", "-"], &bytes);
    assert_eq!(text(&checked.stdout), "-: accepted, 13 events, 2 changes\n");
}

/// What `check` says of bytes, after the name.
fn verdict(bytes: &[u8]) -> String {
    let checked = run_on(["check"], bytes);
    let line = text(&checked.stdout);
    line.strip_prefix("-: ")
        .and_then(|it| it.strip_suffix('\n'))
        .unwrap_or(&line)
        .to_string()
}

/// A byte of the log of 004, another value there.
fn changed(place: usize, value: u8) -> Vec<u8> {
    let mut bytes = std::fs::read(log_004()).expect("the log");
    bytes[place] = value;
    bytes
}

#[test]
fn a_refusal_names_its_event() {
    let cases: [(Vec<u8>, &str); 6] = [
        (
            changed(430, 0xee),
            "refused 8 (checksum wrong) at 389 (0x185), in an UPDATE_ROWS event",
        ),
        // a length's lowest byte
        (
            changed(331 + 9, 0xee),
            "refused 9 (next position isn't event place plus length) \
            at 331 (0x14b), in a TABLE_MAP event",
        ),
        (
            changed(4 + 4, 2),
            "refused 3 (nothing follows the first four bytes, or the first event \
            isn't a description) at 4 (0x4), in a QUERY event",
        ),
        (
            changed(389 + 4, 15),
            "refused 10 (a second description) at 389 (0x185), \
            in a FORMAT_DESCRIPTION event",
        ),
        (
            changed(0, 0)[..400].to_vec(),
            "refused 2 (not a binlog: the first four bytes aren't \
            fe 62 69 6e, or are missing) at 0 (0x0)",
        ),
        (
            changed(0, 0xfe)[..391].to_vec(),
            "refused 4 (event cut short by the log's end) \
            at 389 (0x185)",
        ),
    ];
    for (bytes, expected) in cases {
        assert_eq!(verdict(&bytes), expected);
    }
}

/// Refusal 18's place is a value's: the event around it is named with its own place.
#[test]
fn a_refused_value_names_the_event_around_it() {
    let mut seen = 0;
    for (name, account) in evidence::sections() {
        let [18, place] = numbers(&account[0])[..] else {
            continue;
        };
        let bytes = evidence::read(&name);
        let said = verdict(&bytes);
        let (_, event) = said
            .rsplit_once(" event at ")
            .unwrap_or_else(|| panic!("{name}: {said}"));
        let event: usize = event.parse().expect("a place");
        let end = event + length_at(&bytes, event);
        assert!((event..end).contains(&place), "{name}: {said}");
        assert!(matches!(bytes[event + 4], 30..=32), "{name}: {said}");
        seen += 1;
    }
    assert!(seen > 5, "{seen}");
}

#[test]
fn the_worst_status_counts() {
    let sound = log_004();
    let damaged = evidence::path("made/columns-513.log");
    let status = |words: &[&Path]| {
        let words = std::iter::once(Path::new("check")).chain(words.iter().copied());
        run(words.map(Path::as_os_str)).status.code()
    };
    let missing = Path::new("/no/such/file");
    assert_eq!(status(&[&sound, &sound]), Some(0));
    assert_eq!(status(&[&sound, &damaged, &sound]), Some(1));
    assert_eq!(status(&[&damaged, missing, &sound]), Some(2));
}

#[test]
fn what_can_not_be_read_is_told() {
    for (command, path) in [
        ("check", "/no/such/file"),
        ("list", "/no/such/file"),
        ("show", "/"),
    ] {
        let output = run([command, path]);
        assert_eq!(output.status.code(), Some(2));
        assert!(output.stdout.is_empty());
        assert!(text(&output.stderr).starts_with(&format!("tegmeadow: {path}: ")));
    }
}

/// A long file is read in parts, of 1 MiB, by several threads: what is read is
/// the same as from a pipe, whatever its length.
#[test]
fn a_file_is_read_as_a_pipe_is() {
    const PART: usize = 1 << 20;
    let log = repeated(&extremes(), 100);
    assert!(log.len() > 2 * PART + 1);
    let path = Path::new(env!("CARGO_TARGET_TMPDIR")).join("parts.binlog");
    let name = path.to_string_lossy();
    let sizes = [0, 1, PART - 1, PART, PART + 1, 2 * PART, 2 * PART + 1];
    for size in sizes.into_iter().chain([log.len()]) {
        let bytes = &log[..size];
        std::fs::write(&path, bytes).expect("a file");
        let of_file = run(["check", &name]);
        let of_pipe = run_on(["check", "/dev/stdin"], bytes);
        assert_eq!(of_file.status, of_pipe.status, "{size}");
        let said = text(&of_file.stdout).replace(&*name, "-");
        assert_eq!(said, format!("-: {}\n", verdict(bytes)), "{size}");
        assert_eq!(said, text(&of_pipe.stdout).replace("/dev/stdin", "-"));
    }
    assert!(run(["show", &name]).stdout == run_on(["show"], &log).stdout);
}

#[test]
fn an_empty_input_is_refused() {
    let start = "refused 2 (not a binlog";
    assert!(verdict(b"").starts_with(start));
    assert!(verdict(b"").ends_with("at 0 (0x0)"));
    let output = run_on(["show"], b"");
    assert_eq!(output.status.code(), Some(1));
    assert!(output.stdout.is_empty());
    assert!(text(&output.stderr).starts_with(&format!("tegmeadow: -: {start}")));
}

#[test]
fn wrong_use_is_told() {
    let wrong: [&[&str]; 6] = [
        &[],
        &["frobnicate"],
        &["check", "--loud"],
        &["list", "a", "b"],
        &["show", "a", "-"],
        &["-"],
    ];
    for words in wrong {
        let output = run(words);
        assert_eq!(output.status.code(), Some(2), "{words:?}");
        assert!(output.stdout.is_empty(), "{words:?}");
        assert!(text(&output.stderr).contains("--help"), "{words:?}");
    }
}

#[test]
fn help_and_version() {
    let help = run(["--help"]);
    assert_eq!(help.status.code(), Some(0));
    for word in ["check", "list", "show", "--json", "Exit status"] {
        assert!(text(&help.stdout).contains(word), "{word}");
    }
    let version = text(&run(["--version"]).stdout);
    assert_eq!(
        version,
        format!("tegmeadow {}\n", env!("CARGO_PKG_VERSION"))
    );
}

#[test]
fn a_file_named_like_an_option() {
    let folder = Path::new(env!("CARGO_TARGET_TMPDIR"));
    std::fs::copy(log_004(), folder.join("--json")).expect("a copy");
    let output = program()
        .args(["list", "--", "--json"])
        .current_dir(folder)
        .output();
    assert_eq!(
        text(&output.expect("the program runs").stdout)
            .lines()
            .count(),
        2
    );
}

/// A reader that goes away ends the program quietly.
#[test]
fn a_broken_pipe_ends_quietly() {
    // long enough to fill any pipe
    let path = Path::new(env!("CARGO_TARGET_TMPDIR")).join("long.binlog");
    std::fs::write(&path, repeated(&extremes(), 100)).expect("a long log");
    for words in [["show", "--"], ["show", "--json"], ["list", "--"]] {
        let mut child = program()
            .args(words)
            .arg(&path)
            .stdout(Stdio::piped())
            .stderr(Stdio::piped())
            .spawn()
            .expect("the program runs");
        let mut output = child.stdout.take().expect("its output");
        output.read_exact(&mut [0; 1]).expect("a byte");
        drop(output);
        let ended = child.wait_with_output().expect("it ends");
        assert_eq!(
            (ended.status.code(), text(&ended.stderr)),
            (Some(0), String::new())
        );
    }
}

#[test]
fn a_full_disk_is_told() {
    let Ok(full) = File::options().write(true).open("/dev/full") else {
        return;
    };
    let output = program()
        .arg("show")
        .arg(log_004())
        .stdout(full)
        .output()
        .expect("it runs");
    assert_eq!(output.status.code(), Some(2));
    assert!(text(&output.stderr).starts_with("tegmeadow: standard output: "));
}

/// Any bytes: every cut of a log and every byte of it changed, and no panic.
#[test]
fn every_cut_and_every_change_ends_well() {
    let bytes = std::fs::read(log_004()).expect("the log");
    for place in (0..bytes.len()).step_by(3) {
        run_on(["show"], &bytes[..place]);
        let mut other = bytes.clone();
        other[place] ^= 0x55;
        assert_eq!(run_on(["check"], &other).status.code(), Some(1), "{place}");
    }
}
