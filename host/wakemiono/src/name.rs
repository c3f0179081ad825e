//! Names, as the very bytes that were lent.

use std::fmt;
use std::str::{self, Utf8Error};

/// A name: the very bytes of the payload or module that was asked, borrowed and not copied.
///
/// It lives as long as those bytes, and may outlive the value that was asked:
///
/// ```
/// use wakemiono::{Name, NamePayload};
///
/// fn name_of_module(bytes: &[u8]) -> Option<Name<'_>> {
///     let payload = NamePayload::new(bytes);
///     payload.module_name().ok()?
/// }
///
/// let bytes = [0x00, 0x02, 0x01, 0x6D];
/// assert_eq!(name_of_module(&bytes).unwrap().as_bytes(), b"m");
/// ```
///
/// but not the bytes:
///
/// ```compile_fail,E0597
/// use wakemiono::NamePayload;
///
/// let name = {
///     let bytes = vec![0x00, 0x02, 0x01, 0x6D];
///     NamePayload::new(&bytes).module_name()
/// };
/// name.unwrap();
/// ```
#[derive(Clone, Copy, PartialEq, Eq, PartialOrd, Ord, Hash)]
pub struct Name<'a>(&'a [u8]);

impl<'a> Name<'a> {
    /// The bytes.
    ///
    /// ```
    /// use wakemiono::{FunctionIndex, NamePayload};
    ///
    /// let payload = NamePayload::new(&[0x01, 0x04, 0x01, 0x00, 0x01, 0x61]);
    /// let name = payload.function_name(FunctionIndex(0))?.unwrap();
    /// assert_eq!(name.as_bytes(), b"a");
    /// # Ok::<(), wakemiono::Refusal>(())
    /// ```
    #[must_use]
    pub const fn as_bytes(&self) -> &'a [u8] {
        self.0
    }

    /// The name as text, checked here once more. A name that a call has found is always text, but
    /// for one that [`NamePayload::quick_function_name`](crate::NamePayload::quick_function_name)
    /// has found by lists that are not the payload's own markers.
    ///
    /// ```
    /// use wakemiono::Name;
    ///
    /// assert_eq!(Name::from(&b"main"[..]).to_str(), Ok("main"));
    /// assert!(Name::from(&b"\xFF"[..]).to_str().is_err());
    /// ```
    ///
    /// # Errors
    ///
    /// Where the bytes are not UTF-8, which can only be with a name that did not come from a call, or
    /// from that one.
    pub const fn to_str(&self) -> Result<&'a str, Utf8Error> {
        str::from_utf8(self.0)
    }

    /// The length in bytes.
    ///
    /// ```
    /// use wakemiono::Name;
    ///
    /// assert_eq!(Name::from("é".as_bytes()).len(), 2);
    /// ```
    #[must_use]
    pub const fn len(&self) -> usize {
        self.0.len()
    }

    /// Whether the name is there and empty, which is not the same as no name.
    ///
    /// ```
    /// use wakemiono::NamePayload;
    ///
    /// let empty_name = NamePayload::new(&[0x00, 0x01, 0x00]);
    /// assert!(empty_name.module_name()?.unwrap().is_empty());
    /// let no_name = NamePayload::new(&[]);
    /// assert!(no_name.module_name()?.is_none());
    /// # Ok::<(), wakemiono::Refusal>(())
    /// ```
    #[must_use]
    pub const fn is_empty(&self) -> bool {
        self.0.is_empty()
    }
}

/// Any bytes, unchecked.
///
/// ```
/// use wakemiono::Name;
///
/// assert_eq!(Name::from(&b"main"[..]).as_bytes(), b"main");
/// ```
impl<'a> From<&'a [u8]> for Name<'a> {
    fn from(bytes: &'a [u8]) -> Name<'a> {
        Name(bytes)
    }
}

/// So that names go straight into [`function_names`](crate::function_names).
///
/// ```
/// use wakemiono::{function_names, FunctionIndex, Name};
///
/// let written = function_names([(FunctionIndex(0), Name::from(&b"a"[..]))])?;
/// assert_eq!(written, [0x01, 0x04, 0x01, 0x00, 0x01, 0x61]);
/// # Ok::<(), wakemiono::Refusal>(())
/// ```
impl AsRef<[u8]> for Name<'_> {
    fn as_ref(&self) -> &[u8] {
        self.0
    }
}

const QUOTES: [char; 2] = ['"', '\''];

/// Letters and symbols that are drawn as nothing: the fillers of Hangul and the empty pattern of
/// Braille. The standard library takes them for printable, as they are neither spaces nor controls.
const BLANK: [char; 5] = ['\u{115F}', '\u{1160}', '\u{2800}', '\u{3164}', '\u{FFA0}'];

/// The same text with blank letters and symbols escaped.
fn visible(text: &str) -> String {
    let mut visible = String::new();
    for run in text.split_inclusive(BLANK) {
        let drawn = run.strip_suffix(BLANK).unwrap_or(run);
        visible.push_str(drawn);
        visible.extend(run[drawn.len()..].chars().flat_map(char::escape_unicode));
    }
    visible
}

impl Name<'_> {
    /// The name on one line: text as it is spelled, and bytes that are not UTF-8 as `\xFF`.
    fn shown(&self, spell: impl Fn(&mut String, &str)) -> String {
        let mut shown = String::new();
        for chunk in self.0.utf8_chunks() {
            spell(&mut shown, chunk.valid());
            for byte in chunk.invalid() {
                shown.push_str(&format!("\\x{byte:02X}"));
            }
        }
        visible(&shown)
    }
}

/// The name on one line, for people: a backslash, what is not printable and letters that are drawn as
/// nothing are escaped, and bytes that are not UTF-8 are shown as `\xFF`. Different names are shown
/// differently.
///
/// ```
/// use wakemiono::Name;
///
/// assert_eq!(Name::from(&b"<\"T\"> \n \xFF"[..]).to_string(), r#"<"T"> \n \xFF"#);
/// assert_eq!(format!("{:>6}|", Name::from(&b"main"[..])), "  main|");
/// ```
impl fmt::Display for Name<'_> {
    fn fmt(&self, f: &mut fmt::Formatter<'_>) -> fmt::Result {
        f.pad(&self.shown(|shown, text| {
            for run in text.split_inclusive(QUOTES) {
                let unquoted = run.strip_suffix(QUOTES).unwrap_or(run);
                shown.extend(unquoted.escape_debug());
                shown.push_str(&run[unquoted.len()..]);
            }
        }))
    }
}

/// As it is displayed, and between quotes with quotes escaped.
///
/// ```
/// use wakemiono::Name;
///
/// assert_eq!(format!("{:?}", Name::from(&b"a\"b\0"[..])), r#"Name("a\"b\0")"#);
/// ```
impl fmt::Debug for Name<'_> {
    fn fmt(&self, f: &mut fmt::Formatter<'_>) -> fmt::Result {
        let shown = self.shown(|shown, text| shown.extend(text.escape_debug()));
        write!(f, "Name(\"{shown}\")")
    }
}
