//! A strict reader of JSON (RFC 8259), to hold the program's lines to.

#[derive(Clone, Debug, PartialEq)]
pub enum Json {
    Null,
    Bool(bool),
    /// A number by its signs.
    Number(String),
    String(String),
    Array(Vec<Json>),
    Object(Vec<(String, Json)>),
}

impl Json {
    pub fn get(&self, key: &str) -> Option<&Json> {
        match self {
            Json::Object(members) => members.iter().find(|(k, _)| k == key).map(|(_, v)| v),
            _ => None,
        }
    }

    pub fn number(&self, key: &str) -> Option<f64> {
        match self.get(key) {
            Some(Json::Number(signs)) => signs.parse().ok(),
            _ => None,
        }
    }
}

/// The value of a whole text, or none where it isn't JSON.
pub fn parse(text: &str) -> Option<Json> {
    let mut rest = text;
    let value = value(&mut rest)?;
    rest.is_empty().then_some(value)
}

fn take(rest: &mut &str, word: &str) -> Option<()> {
    *rest = rest.strip_prefix(word)?;
    Some(())
}

fn value(rest: &mut &str) -> Option<Json> {
    match rest.chars().next()? {
        'n' => take(rest, "null").map(|()| Json::Null),
        't' => take(rest, "true").map(|()| Json::Bool(true)),
        'f' => take(rest, "false").map(|()| Json::Bool(false)),
        '"' => string(rest).map(Json::String),
        '[' => items(rest, "[", "]", value).map(Json::Array),
        '{' => items(rest, "{", "}", member).and_then(unlike),
        _ => number(rest).map(Json::Number),
    }
}

/// An object with no key twice.
fn unlike(members: Vec<(String, Json)>) -> Option<Json> {
    let mut keys: Vec<&String> = members.iter().map(|(key, _)| key).collect();
    keys.sort();
    let is_twice = keys.windows(2).any(|pair| pair[0] == pair[1]);
    (!is_twice).then_some(Json::Object(members))
}

fn items<T>(
    rest: &mut &str,
    open: &str,
    close: &str,
    item: fn(&mut &str) -> Option<T>,
) -> Option<Vec<T>> {
    take(rest, open)?;
    let mut all = Vec::new();
    if take(rest, close).is_some() {
        return Some(all);
    }
    loop {
        all.push(item(rest)?);
        if take(rest, close).is_some() {
            return Some(all);
        }
        take(rest, ",")?;
    }
}

fn member(rest: &mut &str) -> Option<(String, Json)> {
    let key = string(rest)?;
    take(rest, ":")?;
    Some((key, value(rest)?))
}

fn string(rest: &mut &str) -> Option<String> {
    take(rest, "\"")?;
    let mut text = String::new();
    loop {
        let sign = rest.chars().next()?;
        *rest = &rest[sign.len_utf8()..];
        match sign {
            '"' => return Some(text),
            '\\' => text.push(escape(rest)?),
            '\0'..='\x1f' => return None,
            _ => text.push(sign),
        }
    }
}

fn escape(rest: &mut &str) -> Option<char> {
    let sign = rest.chars().next()?;
    *rest = &rest[sign.len_utf8()..];
    match sign {
        '"' | '\\' | '/' => Some(sign),
        'u' => {
            let digits = rest.get(..4)?;
            *rest = &rest[4..];
            char::from_u32(u32::from_str_radix(digits, 16).ok()?)
        }
        _ => None,
    }
}

fn number(rest: &mut &str) -> Option<String> {
    let end = rest.find([',', ']', '}']).unwrap_or(rest.len());
    let (signs, after) = rest.split_at(end);
    let unsigned = signs.strip_prefix('-').unwrap_or(signs);
    let (mantissa, exponent) = unsigned.split_once('e').unwrap_or((unsigned, "0"));
    let (whole, fraction) = mantissa.split_once('.').unwrap_or((mantissa, "0"));
    let is_digits = |text: &str| !text.is_empty() && text.bytes().all(|b| b.is_ascii_digit());
    let is_number = is_digits(whole)
        && (whole == "0" || !whole.starts_with('0'))
        && is_digits(fraction)
        && is_digits(exponent.strip_prefix(['-', '+']).unwrap_or(exponent));
    *rest = after;
    is_number.then(|| signs.to_string())
}
