//! Names of event types, and the event that a place is in.

use crate::layout::number;
use tegmeadow::Refusal;

/// An event's place and type.
#[derive(Clone, Copy)]
pub struct Event {
    pub place: usize,
    pub kind: u8,
}

impl Event {
    fn at(log: &[u8], place: usize) -> Option<Event> {
        Some(Event {
            place,
            kind: *log.get(place.checked_add(4)?)?,
        })
    }

    /// The event that a refusal is about, if it is about one that is there.
    pub fn of(log: &[u8], refusal: &Refusal) -> Option<Event> {
        match refusal.number {
            3..=17 => Event::at(log, refusal.place),
            18 => Event::around(log, refusal.place),
            _ => None,
        }
    }

    /// The event that has a byte: found by the events' lengths.
    fn around(log: &[u8], byte: usize) -> Option<Event> {
        let mut place = 4;
        loop {
            // a header has 19 bytes, so no event is shorter
            let length = number(log, place + 9, 4)?.max(19) as usize;
            if byte < place + length {
                return Event::at(log, place);
            }
            place += length;
        }
    }

    /// As in "in ..": the type's name, or its number where it has none.
    pub fn words(&self) -> String {
        match name(self.kind) {
            Some(name) if spoken_with_a_vowel(name) => format!("an {name} event"),
            Some(name) => format!("a {name} event"),
            None => format!("an event of type {}", self.kind),
        }
    }
}

fn spoken_with_a_vowel(name: &str) -> bool {
    name.starts_with(['A', 'E', 'I', 'O', 'U', 'X']) && name != "USER_VAR"
}

/// The name of an event type, in MySQL or MariaDB.
pub fn name(kind: u8) -> Option<&'static str> {
    #[rustfmt::skip]
    const FIRST: [&str; 43] = [
        "UNKNOWN", "START_V3", "QUERY", "STOP", "ROTATE", "INTVAR", "LOAD", "SLAVE",
        "CREATE_FILE", "APPEND_BLOCK", "EXEC_LOAD", "DELETE_FILE", "NEW_LOAD", "RAND", "USER_VAR",
        "FORMAT_DESCRIPTION", "XID", "BEGIN_LOAD_QUERY", "EXECUTE_LOAD_QUERY", "TABLE_MAP",
        "PRE_GA_WRITE_ROWS", "PRE_GA_UPDATE_ROWS", "PRE_GA_DELETE_ROWS", "WRITE_ROWS_V1",
        "UPDATE_ROWS_V1", "DELETE_ROWS_V1", "INCIDENT", "HEARTBEAT", "IGNORABLE", "ROWS_QUERY",
        "WRITE_ROWS", "UPDATE_ROWS", "DELETE_ROWS", "GTID", "ANONYMOUS_GTID", "PREVIOUS_GTIDS",
        "TRANSACTION_CONTEXT", "VIEW_CHANGE", "XA_PREPARE", "PARTIAL_UPDATE_ROWS",
        "TRANSACTION_PAYLOAD", "HEARTBEAT_V2", "GTID_TAGGED",
    ];
    #[rustfmt::skip]
    const MARIADB: [&str; 12] = [
        "ANNOTATE_ROWS", "BINLOG_CHECKPOINT", "MARIADB_GTID", "MARIADB_GTID_LIST",
        "START_ENCRYPTION", "QUERY_COMPRESSED", "WRITE_ROWS_COMPRESSED_V1",
        "UPDATE_ROWS_COMPRESSED_V1", "DELETE_ROWS_COMPRESSED_V1", "WRITE_ROWS_COMPRESSED",
        "UPDATE_ROWS_COMPRESSED", "DELETE_ROWS_COMPRESSED",
    ];
    let kind = usize::from(kind);
    let mariadb = kind.checked_sub(160).and_then(|index| MARIADB.get(index));
    FIRST.get(kind).or(mariadb).copied()
}
