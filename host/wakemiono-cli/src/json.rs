//! JSON, as far as this program writes it.

use std::fmt::{self, Display, Formatter, Write};

/// A JSON value.
#[derive(Clone, Debug, PartialEq, Eq)]
pub enum Json {
    /// `null`.
    Null,
    /// `true` or `false`.
    Bool(bool),
    /// A number that counts something.
    Number(u64),
    /// A string.
    Text(String),
    /// An array.
    List(Vec<Json>),
    /// An object, whose members are written in this order.
    Object(Vec<(&'static str, Json)>),
}

impl Json {
    /// A string.
    pub fn text(text: impl Into<String>) -> Json {
        Json::Text(text.into())
    }

    /// A length or offset in memory.
    pub fn size(size: usize) -> Json {
        Json::Number(size as u64)
    }

    /// Bytes as an array of numbers.
    pub fn bytes(bytes: &[u8]) -> Json {
        bytes.iter().copied().collect()
    }
}

impl<T: Into<Json>> FromIterator<T> for Json {
    fn from_iter<I: IntoIterator<Item = T>>(items: I) -> Json {
        Json::List(items.into_iter().map(Into::into).collect())
    }
}

impl From<u8> for Json {
    fn from(number: u8) -> Json {
        Json::Number(number.into())
    }
}

impl From<u32> for Json {
    fn from(number: u32) -> Json {
        Json::Number(number.into())
    }
}

impl Display for Json {
    fn fmt(&self, f: &mut Formatter<'_>) -> fmt::Result {
        match self {
            Json::Null => f.write_str("null"),
            Json::Bool(value) => write!(f, "{value}"),
            Json::Number(value) => write!(f, "{value}"),
            Json::Text(text) => string(f, text),
            Json::List(items) => {
                f.write_char('[')?;
                for (position, item) in items.iter().enumerate() {
                    separate(f, position)?;
                    write!(f, "{item}")?;
                }
                f.write_char(']')
            }
            Json::Object(members) => {
                f.write_char('{')?;
                for (position, (key, value)) in members.iter().enumerate() {
                    separate(f, position)?;
                    string(f, key)?;
                    write!(f, ":{value}")?;
                }
                f.write_char('}')
            }
        }
    }
}

fn separate(f: &mut Formatter<'_>, position: usize) -> fmt::Result {
    if position > 0 {
        f.write_char(',')?;
    }
    Ok(())
}

fn string(f: &mut Formatter<'_>, text: &str) -> fmt::Result {
    f.write_char('"')?;
    text.chars().try_for_each(|c| character(f, c))?;
    f.write_char('"')
}

fn character(f: &mut Formatter<'_>, c: char) -> fmt::Result {
    match c {
        '"' | '\\' => write!(f, "\\{c}"),
        _ if is_shown(c) => f.write_char(c),
        // A character above U+FFFF takes two escapes, which is how JSON spells it.
        _ => c
            .encode_utf16(&mut [0; 2])
            .iter()
            .try_for_each(|unit| write!(f, "\\u{unit:04X}")),
    }
}

/// Whether a character is printable, by the same rule as in the lines for people.
fn is_shown(c: char) -> bool {
    let mut escape = c.escape_debug();
    c == '\'' || (escape.next() == Some(c) && escape.next().is_none())
}

#[cfg(test)]
mod tests {
    use super::*;

    #[test]
    fn values_are_written_without_spaces() {
        let value = Json::Object(vec![
            ("a", Json::List(vec![Json::Null, Json::Bool(true)])),
            ("b", Json::Number(u64::MAX)),
            ("c", Json::bytes(&[0, 255])),
            ("d", Json::Object(vec![])),
        ]);
        let written = r#"{"a":[null,true],"b":18446744073709551615,"c":[0,255],"d":{}}"#;
        assert_eq!(value.to_string(), written);
    }

    #[test]
    fn strings_are_escaped() {
        let spelled = |text: &str| Json::text(text).to_string();
        assert_eq!(spelled("it's \"a\\b\""), r#""it's \"a\\b\"""#);
        assert_eq!(spelled("\0\n\u{7F}"), r#""\u0000\u000A\u007F""#);
        assert_eq!(spelled("größe"), r#""größe""#);
        assert_eq!(spelled("\u{202E}\u{E0001}"), r#""\u202E\uDB40\uDC01""#);
    }
}
