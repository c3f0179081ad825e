//! Names and paths on one line, for people.

use std::ffi::OsStr;

use wakemiono::Name;

/// What is printed where there is no name.
pub const NONE: &str = "none";

/// Bytes on one line: a backslash and what is not printable or drawn as nothing are escaped, bytes
/// that are not UTF-8 are shown as `\xFF`, and different bytes are shown differently.
pub fn escaped(bytes: &[u8]) -> String {
    Name::from(bytes).to_string()
}

/// An answer that stands alone on its line: `none`, or the escaped name.
///
/// A name that is itself `none` is shown with its first letter escaped, since a reader could not
/// tell it from no name otherwise.
pub fn answer(bytes: Option<&[u8]>) -> String {
    match bytes {
        None => NONE.to_owned(),
        Some(name) if name == NONE.as_bytes() => r"\u{6e}one".to_owned(),
        Some(name) => escaped(name),
    }
}

/// A word of the command line, such as a path, which may hold any bytes.
pub fn word(word: &OsStr) -> String {
    escaped(word.as_encoded_bytes())
}

/// The same between quotes, for a sentence, where an empty word could not be seen and one with
/// spaces would read as several.
pub fn quoted(word: &OsStr) -> String {
    format!("'{}'", self::word(word).replace('\'', r"\'"))
}

#[cfg(test)]
mod tests {
    use super::*;

    #[test]
    fn what_is_not_printable_is_escaped() {
        assert_eq!(escaped(b"a\tb\\c\xFFd"), r"a\tb\\c\xFFd");
        assert_eq!(escaped("größe\u{202E}".as_bytes()), r"größe\u{202e}");
    }

    #[test]
    fn what_is_drawn_as_nothing_is_escaped() {
        assert_eq!(escaped("a\u{3164}b".as_bytes()), r"a\u{3164}b");
        assert_eq!(escaped("\u{2800}".as_bytes()), r"\u{2800}");
    }

    #[test]
    fn words_are_quoted() {
        assert_eq!(quoted(OsStr::new("")), "''");
        assert_eq!(quoted(OsStr::new("it's\n")), r"'it\'s\n'");
    }

    #[test]
    fn no_name_is_told_from_the_name_none() {
        assert_eq!(answer(None), "none");
        assert_eq!(answer(Some(b"none")), r"\u{6e}one");
        assert_eq!(answer(Some(b"")), "");
    }
}
