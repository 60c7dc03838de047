//! `show` against the `###` lines of the server's own `mysqlbinlog`.
//!
//! Quirks of mysqlbinlog that `show` prints too, so that a keeper can diff the
//! two: a negative integer is followed by its unsigned value in brackets;
//! FLOAT has six digits and is padded to 20 signs; YEAR 0 is 1900; for odd F
//! the stored digit below F is not printed; the lines about partitions.
//! What it does differently is named below, one by one.

mod common;

use common::{
    append, extremes, file, length_at, log_of_texts, repeated, run, run_on, text, texts_of,
};
use std::path::{Path, PathBuf};
use std::process::Command;

/// The texts of the real logs were made with -vv: a line of a column ends in a
/// comment on its type, which -v has not.
fn without_type_comment(line: &[u8]) -> &[u8] {
    let is_column = line.starts_with(b"###   @");
    let start = line.windows(4).rposition(|window| window == b" /* ");
    match start {
        Some(start) if is_column && is_type_comment(&line[start..]) => &line[..start],
        _ => line,
    }
}

/// ` /* INT meta=0 nullable=1 is_null=0 */`
fn is_type_comment(comment: &[u8]) -> bool {
    let text = String::from_utf8_lossy(comment);
    let words: Vec<&str> = text.split(' ').collect();
    matches!(words[..], ["", "/*", _, meta, nullable, is_null, "*/"]
        if meta.starts_with("meta=")
        && nullable.starts_with("nullable=")
        && is_null.starts_with("is_null="))
}

/// A DATE's year above 9999: mysqlbinlog makes one sign of its first two
/// digits, `:` of 10 and so on. No server writes such a year. Applied to what
/// `show` prints.
fn with_one_sign_for_two_digits(line: Vec<u8>) -> Vec<u8> {
    let shape: Vec<u8> = line
        .iter()
        .map(|b| if b.is_ascii_digit() { b'9' } else { *b })
        .collect();
    match shape
        .windows(13)
        .position(|window| window == b"'99999:99:99'")
    {
        Some(quote) => {
            let thousands = (line[quote + 1] - b'0') * 10 + (line[quote + 2] - b'0');
            let (before, after) = (&line[..=quote], &line[quote + 3..]);
            [before, &[b'0' + thousands], after].concat()
        }
        None => line,
    }
}

/// The real logs that the rules refuse, by what.
const REFUSED: [(&str, u32); 13] = [
    ("mysql-cols513-crc32", 12),
    ("mysql-defaults-minimal", 16),
    ("mysql-json-partial", 13),
    ("mysql-late-crc32-full", 13),
    ("mysql-late-crc32-minmeta", 13),
    ("mysql-late-crc32-minmeta-open", 8),
    ("mysql-late-none-minimal-fullmeta", 13),
    ("mysql-live17-crc32", 14),
    ("mysql-outside-crc32", 13),
    ("mysql-part-compressed", 11),
    ("mysql-part-gtid-tagged", 11),
    ("mysql-xa", 11),
    ("mysql-year-minmeta", 13),
];

/// The `###` lines of a text, which may be compressed.
fn pseudo_sql(path: &Path) -> Vec<Vec<u8>> {
    let bytes = match path.extension().is_some_and(|it| it == "gz") {
        true => {
            Command::new("gzip")
                .arg("-dc")
                .arg(path)
                .output()
                .expect("gzip runs")
                .stdout
        }
        false => std::fs::read(path).expect("the text"),
    };
    assert!(!bytes.is_empty(), "{}", path.display());
    let lines = bytes
        .split(|byte| *byte == b'\n')
        .filter(|line| line.starts_with(b"###"));
    lines.map(|line| line.to_vec()).collect()
}

/// The folders that the real logs stand in.
fn real_folders() -> [PathBuf; 2] {
    [
        file("host/compare/data/real"),
        file("crates/evidence/data/real"),
    ]
}

/// A real log by its name.
fn real_log(name: &str) -> Vec<u8> {
    let path = real_folders()
        .map(|folder| folder.join(name))
        .into_iter()
        .find(|it| it.is_file());
    std::fs::read(path.unwrap_or_else(|| panic!("no {name}"))).expect("the log")
}

/// What mysqlbinlog printed of a log, if it is kept.
fn text_of(log: &str) -> Option<Vec<Vec<u8>>> {
    let plain = file(&format!(
        "host/compare/data/mysqlbinlog/{log}.mysqlbinlog.txt"
    ));
    let packed = plain.with_extension("txt.gz");
    let path = [plain, packed].into_iter().find(|path| path.is_file())?;
    let lines = pseudo_sql(&path).into_iter();
    Some(
        lines
            .map(|line| without_type_comment(&line).to_vec())
            .collect(),
    )
}

fn real_logs() -> Vec<PathBuf> {
    let entries = |folder: PathBuf| {
        let entries = std::fs::read_dir(&folder);
        entries.unwrap_or_else(|e| panic!("{}: {e}", folder.display()))
    };
    let paths = real_folders().into_iter().flat_map(entries);
    let paths = paths.map(|entry| entry.expect("an entry").path());
    paths
        .filter(|path| path.extension().is_some_and(|it| it == "binlog"))
        .collect()
}

fn lines(bytes: &[u8]) -> Vec<Vec<u8>> {
    let bytes = bytes.strip_suffix(b"\n").unwrap_or(bytes);
    match bytes.is_empty() {
        true => Vec::new(),
        false => bytes
            .split(|byte| *byte == b'\n')
            .map(|line| line.to_vec())
            .collect(),
    }
}

/// Holds what `show` printed to the first of the expected lines, or to all.
fn hold(name: &str, shown: &[Vec<u8>], expected: &[Vec<u8>]) {
    for (number, (shown, expected)) in shown.iter().zip(expected).enumerate() {
        assert_eq!(text(shown), text(expected), "{name}, line {}", number + 1);
        assert_eq!(shown, expected, "{name}, line {}", number + 1);
    }
}

#[test]
fn show_agrees_on_the_real_logs_that_are_accepted() {
    let mut compared = 0;
    for path in real_logs() {
        let name = path
            .file_name()
            .expect("a name")
            .to_string_lossy()
            .into_owned();
        let shown = run(["show".as_ref(), path.as_os_str()]);
        if shown.status.code() != Some(0) {
            assert!(
                REFUSED
                    .iter()
                    .any(|(refused, _)| format!("{refused}.binlog") == name),
                "{name}"
            );
            continue;
        }
        let expected = text_of(&name).unwrap_or_else(|| panic!("no text of {name}"));
        let shown = lines(&shown.stdout);
        hold(&name, &shown, &expected);
        assert_eq!(shown.len(), expected.len(), "{name}");
        assert!(shown.len() > 50, "{name}");
        compared += 1;
    }
    assert_eq!(compared, 18);
}

/// A log cut before the event that is refused is sound: what it shows are the
/// first lines of the whole log's text.
#[test]
fn show_agrees_on_what_stands_before_a_refused_event() {
    let mut compared = 0;
    for (name, number) in REFUSED {
        let name = format!("{name}.binlog");
        let bytes = real_log(&name);
        let refused = text(&run_on(["check"], &bytes).stdout);
        let start = format!("-: refused {number} (");
        assert!(refused.starts_with(&start), "{name}: {refused}");
        let (_, place) = refused.split_once(") at ").expect("a place");
        let place: usize = place
            .split(' ')
            .next()
            .and_then(|it| it.parse().ok())
            .expect("a number");
        if place <= 4 {
            continue;
        }
        let shown = run_on(["show"], &bytes[..place]);
        assert_eq!(shown.status.code(), Some(0), "{name}");
        let shown = lines(&shown.stdout);
        if let Some(expected) = text_of(&name) {
            assert!(shown.len() <= expected.len(), "{name}");
            hold(&name, &shown, &expected);
            compared += shown.len();
        }
    }
    assert!(compared > 100, "{compared}");
}

/// Every byte in a text, floats of all sizes, every fraction, the ends of the integers.
#[test]
fn show_agrees_on_extreme_values() {
    let log = file("host/tool/tests/data/extremes.binlog");
    let expected = pseudo_sql(&file("host/tool/tests/data/extremes.txt.gz"));
    let shown = run(["show".as_ref(), log.as_os_str()]);
    let shown: Vec<_> = lines(&shown.stdout)
        .into_iter()
        .map(with_one_sign_for_two_digits)
        .collect();
    hold("extremes", &shown, &expected);
    assert_eq!(shown.len(), expected.len());
}

/// A text as mysqlbinlog quotes it, byte by byte.
fn quoted(text: &[u8]) -> Vec<u8> {
    let escaped = |byte: u8| match byte {
        0x08 => b"\\b".to_vec(),
        b'\t' => b"\\t".to_vec(),
        b'\n' => b"\\n".to_vec(),
        0x0c => b"\\f".to_vec(),
        b'\r' => b"\\r".to_vec(),
        0..=0x1f => format!("\\x{byte:02x}").into_bytes(),
        b'\'' | b'\\' => vec![b'\\', byte],
        _ => vec![byte],
    };
    let inner: Vec<u8> = text.iter().copied().flat_map(escaped).collect();
    [b"'", &inner[..], b"'"].concat()
}

/// Whatever length a text has, and wherever in it something is escaped.
#[test]
fn texts_of_all_lengths_are_quoted() {
    let all: Vec<u8> = (0..=255).collect();
    for texts in [&all, &all[..0x60], &all[..0x20]].map(texts_of) {
        let shown = run_on(["show"], &log_of_texts(&texts)).stdout;
        let start = b"### INSERT INTO `test`.`t`\n### SET\n###   @1=";
        let change = |text: &Vec<u8>| [start, &quoted(text)[..], b"\n"].concat();
        let expected: Vec<u8> = texts.iter().flat_map(change).collect();
        hold("texts", &lines(&shown), &lines(&expected));
        assert!(shown == expected);
    }
}

/// A long log is shown by several threads, in order.
#[test]
fn a_long_log_is_shown_in_order() {
    let once = run_on(["show"], &extremes()).stdout;
    let often = run_on(["show"], &repeated(&extremes(), 40)).stdout;
    assert!(often == once.repeat(40));
    let once = run_on(["show", "--json"], &repeated(&extremes(), 40)).stdout;
    let number = |line: &[u8]| {
        let line = text(line);
        line.trim_start_matches("{\"change\":")
            .split(',')
            .next()
            .map(str::to_string)
    };
    for (k, line) in lines(&once).iter().enumerate() {
        assert_eq!(number(line), Some(k.to_string()));
    }
}

/// The line about a partition comes once before the changes of an event, also
/// where they are so many that several threads show them.
#[test]
fn a_partition_is_said_once_an_event() {
    let log = real_log("mysql-part-crc32.binlog");
    let listed = text(&run_on(["list"], &log).stdout);
    let numbers = listed
        .split_whitespace()
        .map(|it| it.parse().expect("a number"));
    let numbers: Vec<usize> = numbers.take(5).collect();
    let [30, event, _, 0, image] = numbers[..] else {
        panic!("{listed}")
    };
    let rows = &log[image..event + length_at(&log, event) - 4];
    let mut long = log[..event].to_vec();
    append(
        &mut long,
        [&log[event..image], &rows.repeat(50_000)].concat(),
    );
    let shown = lines(&run_on(["show"], &long).stdout);
    let said = shown
        .iter()
        .filter(|line| line.starts_with(b"### Extra row info"));
    let changes = shown
        .iter()
        .filter(|line| line.starts_with(b"### INSERT INTO"));
    assert_eq!((said.count(), changes.count()), (1, 100_000));
}

#[test]
fn a_normalisation_takes_no_more_than_it_names() {
    let line = b"###   @2=-1 (255) /* TINYINT meta=0 nullable=1 is_null=0 */";
    assert_eq!(without_type_comment(line), b"###   @2=-1 (255)");
    for kept in [
        &b"###   @2='x /* y */'"[..],
        b"### INSERT INTO `a /* b */`",
        b"###   @2=1",
    ] {
        assert_eq!(without_type_comment(kept), kept);
    }
    let year = |line: &[u8]| with_one_sign_for_two_digits(line.to_vec());
    assert_eq!(year(b"###   @1='10000:01:31'"), b"###   @1=':000:01:31'");
    assert_eq!(year(b"###   @1='9999:01:31'"), b"###   @1='9999:01:31'");
}
