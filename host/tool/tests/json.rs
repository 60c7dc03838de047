//! The lines of `--json` are JSON, and say what the other forms say.

mod common;
#[path = "../../tegmeadow/tests/evidence/mod.rs"]
mod evidence;
#[path = "common/json.rs"]
mod parsed;

use common::{file, log_004, log_of_texts, run, run_on, text, texts_of};
use parsed::{parse, Json};
use std::path::Path;

fn objects(words: &[&str], path: &Path) -> Vec<Json> {
    let output = run(words
        .iter()
        .map(|word| word.as_ref())
        .chain([path.as_os_str()]));
    let text = String::from_utf8(output.stdout).expect("UTF-8");
    let one = |line: &str| parse(line).unwrap_or_else(|| panic!("{}: {line}", path.display()));
    text.lines().map(one).collect()
}

#[test]
fn each_line_is_an_object_of_its_own() {
    let extremes = file("host/tool/tests/data/extremes.binlog");
    let logs = evidence::sections()
        .into_iter()
        .map(|(name, _)| evidence::path(&name));
    let mut seen = 0;
    for path in logs.chain([extremes]) {
        let [checked] = &objects(&["check", "--json"], &path)[..] else {
            panic!("{}", path.display())
        };
        let changes = checked.number("changes").unwrap_or(0.0) as usize;
        let listed = objects(&["list", "--json"], &path);
        let shown = objects(&["show", "--json"], &path);
        assert_eq!(
            (listed.len(), shown.len()),
            (changes, changes),
            "{}",
            path.display()
        );
        for (k, (listed, shown)) in listed.iter().zip(&shown).enumerate() {
            for key in ["change", "event", "map"] {
                assert_eq!(listed.get(key), shown.get(key));
            }
            assert_eq!(shown.number("change"), Some(k as f64));
            seen += 1;
        }
    }
    assert!(seen > 1000, "{seen}");
}

#[test]
fn the_log_of_004() {
    let log = log_004();
    let path = log.to_string_lossy();
    let shown = text(&run(["show", "--json", &path]).stdout);
    let update = "{\"change\":0,\"kind\":\"update\",\"event\":389,\"map\":331,\"table_id\":210,\
        \"database\":\"test\",\"table\":\"testnull2\",\"columns\":3,\
        \"before\":[{\"column\":1,\"value\":null},\
        {\"column\":2,\"type\":\"VARCHAR\",\"value\":\"test\"},{\"column\":3,\"value\":null}],\
        \"after\":[{\"column\":1,\"type\":\"INT\",\"value\":2},{\"column\":2,\"value\":null},\
        {\"column\":3,\"type\":\"VARCHAR\",\"value\":\"test\"}]}";
    assert_eq!(shown.lines().next(), Some(update));
    let listed = text(&run(["list", "--json", &path]).stdout);
    let delete =
        "{\"change\":1,\"type\":32,\"event\":667,\"map\":609,\"before\":698,\"after\":null}";
    assert_eq!(listed.lines().nth(1), Some(delete));
}

/// Each column that the image has, in order, of all changes of a table.
fn cells(table: &str, column: usize) -> Vec<Json> {
    let shown = objects(
        &["show", "--json"],
        &file("host/tool/tests/data/extremes.binlog"),
    );
    let of_table = shown
        .into_iter()
        .filter(|change| change.get("table") == Some(&Json::String(table.to_string())));
    let cell = |change: Json| match change.get("after") {
        Some(Json::Array(cells)) => cells[column].clone(),
        other => panic!("{other:?}"),
    };
    of_table.map(cell).collect()
}

/// Every byte comes back: as a text where it is one, else in hex.
#[test]
fn texts_come_back_byte_for_byte() {
    let found = cells("t``x", 0);
    for (byte, cell) in (0..=255_u8).zip(&found) {
        let bytes = [b'a', byte, b'b'];
        let hex: String = bytes.iter().map(|byte| format!("{byte:02x}")).collect();
        let expected = match std::str::from_utf8(&bytes) {
            Ok(text) => ("value", Json::String(text.to_string())),
            Err(_) => ("hex", Json::String(hex)),
        };
        assert_eq!(cell.get(expected.0), Some(&expected.1), "{byte}");
    }
    assert_eq!(found.len(), 257);
}

/// Texts of all lengths come back, whatever is escaped in them.
#[test]
fn texts_of_all_lengths_come_back() {
    let ascii: Vec<u8> = (0..0x80).collect();
    for texts in [&ascii, &ascii[..0x20]].map(texts_of) {
        let shown = run_on(["show", "--json"], &log_of_texts(&texts)).stdout;
        let shown = String::from_utf8(shown).expect("UTF-8");
        assert_eq!(shown.lines().count(), texts.len());
        for (line, expected) in shown.lines().zip(&texts) {
            let change = parse(line).unwrap_or_else(|| panic!("{line}"));
            let Some(Json::Array(cells)) = change.get("after") else {
                panic!("{line}")
            };
            let expected = Json::String(text(expected));
            assert_eq!(cells[0].get("value"), Some(&expected), "{line}");
        }
    }
}

/// Floats have the digits that give them back, or their bits.
#[test]
fn floats_come_back_bit_for_bit() {
    let found = cells("f", 0);
    assert_eq!(found[0].get("value"), Some(&Json::Number("0.0".into())));
    assert_eq!(found[1].get("value"), Some(&Json::Number("1e-45".into())));
    assert_eq!(found[4].number("bits"), Some(f64::from(0x7f80_0000_u32)));
    assert_eq!(found[8].number("bits"), Some(f64::from(0x7f80_0001_u32)));
    let doubles = cells("f", 1);
    assert_eq!(
        doubles[1].get("value"),
        Some(&Json::Number("5e-324".into()))
    );
    assert_eq!(doubles[2].get("value"), Some(&Json::Number("-0.0".into())));
    let bits = format!("{}", 0x7ff_u64 << 52 | 1);
    assert_eq!(doubles[7].get("bits"), Some(&Json::Number(bits)));
}

#[test]
fn the_test_reader_of_json_is_strict() {
    for sound in [
        "{}",
        "[1,-0.5e+3,\"\\u0041\"]",
        "{\"a\":null,\"b\":[true,false]}",
    ] {
        assert!(parse(sound).is_some(), "{sound}");
    }
    let faulty = [
        "",
        "{",
        "{}x",
        "{\"a\":1,\"a\":2}",
        "[1,]",
        "01",
        "1.",
        ".5",
        "nan",
        "\"\u{1}\"",
        "\"\\x\"",
        "{a:1}",
        "inf",
        "-",
        "+1",
    ];
    for faulty in faulty {
        assert_eq!(parse(faulty), None, "{faulty}");
    }
}
