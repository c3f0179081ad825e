//! Sections of an accepted module, and subsections of an accepted name payload. The library has accepted what
//! is gone through here; the steps from one to the next are this crate's own, by the sizes that were accepted.

use std::fmt;
use std::iter::FusedIterator;

use crate::Name;

/// How many bytes a module has before its sections.
pub(crate) const PREAMBLE_LENGTH: usize = 8;

/// The id of custom sections.
const CUSTOM: u8 = 0;

/// A section of an accepted module: its id, where it lies, and its contents, which are the very bytes of the
/// module.
///
/// ```
/// use wakemiono::Module;
///
/// let module = Module::new(b"\0asm\x01\0\0\0\x00\x04\x01xyz");
/// let section = module.section(0)?.unwrap();
/// assert_eq!((section.id(), section.offset()), (0, 8));
/// assert_eq!((section.contents_offset(), section.contents()), (10, &b"\x01xyz"[..]));
/// assert_eq!(section.name().unwrap().to_str(), Ok("x"));
/// # Ok::<(), wakemiono::Refusal>(())
/// ```
#[derive(Clone, Copy, PartialEq, Eq, Hash)]
pub struct Section<'a>(Part<'a>);

impl<'a> Section<'a> {
    /// The section whose id stands at an offset of an accepted module.
    pub(crate) fn at(module: &'a [u8], offset: u64) -> Option<Section<'a>> {
        Part::at(module, usize::try_from(offset).ok()?).map(Section)
    }

    /// The id, from 0 to 13; 0 is a custom section.
    ///
    /// ```
    /// use wakemiono::Module;
    ///
    /// let mut sections = Module::new(b"\0asm\x01\0\0\0\x01\x01\x00\x03\x01\x00").sections()?;
    /// assert!(sections.any(|section| section.id() == 3));
    /// # Ok::<(), wakemiono::Refusal>(())
    /// ```
    #[must_use]
    pub const fn id(&self) -> u8 {
        self.0.id
    }

    /// Where the section begins: the offset of its id byte in the module.
    ///
    /// ```
    /// use wakemiono::Module;
    ///
    /// let section = Module::new(b"\0asm\x01\0\0\0\x01\x01\x00").section(0)?.unwrap();
    /// assert_eq!(section.offset(), 8);
    /// # Ok::<(), wakemiono::Refusal>(())
    /// ```
    #[must_use]
    pub const fn offset(&self) -> u64 {
        self.0.offset as u64
    }

    /// Where the contents begin, behind id and size: their offset in the module.
    ///
    /// ```
    /// use wakemiono::Module;
    ///
    /// let padded_size = b"\0asm\x01\0\0\0\x01\x81\x80\x00\x00";
    /// let section = Module::new(padded_size).section(0)?.unwrap();
    /// assert_eq!(section.contents_offset(), 12);
    /// # Ok::<(), wakemiono::Refusal>(())
    /// ```
    #[must_use]
    pub const fn contents_offset(&self) -> u64 {
        self.0.start as u64
    }

    /// The contents, without id and size. Those of a custom section begin with its name.
    ///
    /// ```
    /// use wakemiono::Module;
    ///
    /// let section = Module::new(b"\0asm\x01\0\0\0\x01\x01\x00").section(0)?.unwrap();
    /// assert_eq!(section.contents(), [0x00]);
    /// # Ok::<(), wakemiono::Refusal>(())
    /// ```
    #[must_use]
    pub const fn contents(&self) -> &'a [u8] {
        self.0.contents
    }

    /// The name of a custom section; none of any other.
    ///
    /// ```
    /// use wakemiono::Module;
    ///
    /// let module = Module::new(b"\0asm\x01\0\0\0\x00\x04\x01xyz\x01\x01\x00");
    /// let names: Vec<_> = module.sections()?.filter_map(|section| section.name()).collect();
    /// assert_eq!(names.len(), 1);
    /// assert_eq!(names[0].to_str(), Ok("x"));
    /// # Ok::<(), wakemiono::Refusal>(())
    /// ```
    #[must_use]
    pub fn name(&self) -> Option<Name<'a>> {
        self.named_payload().map(|(name, _)| Name::from(name))
    }

    /// The payload of a custom section, which is what stands behind its name; none of any other.
    ///
    /// ```
    /// use wakemiono::Module;
    ///
    /// let module = Module::new(b"\0asm\x01\0\0\0\x00\x04\x01xyz\x01\x01\x00");
    /// assert_eq!(module.section(0)?.unwrap().payload(), Some(&b"yz"[..]));
    /// assert_eq!(module.section(1)?.unwrap().payload(), None);
    /// # Ok::<(), wakemiono::Refusal>(())
    /// ```
    #[must_use]
    pub fn payload(&self) -> Option<&'a [u8]> {
        self.named_payload().map(|(_, payload)| payload)
    }

    /// Name and payload of a custom section.
    fn named_payload(&self) -> Option<(&'a [u8], &'a [u8])> {
        if self.id() != CUSTOM {
            return None;
        }
        let (length, number_bytes) = number(self.contents());
        let name_and_payload = self.contents().get(number_bytes..)?;
        (length <= name_and_payload.len()).then(|| name_and_payload.split_at(length))
    }
}

/// As a person reads it in a failed test: the id, a custom section's name, and where it lies.
///
/// ```
/// use wakemiono::Module;
///
/// let section = Module::new(b"\0asm\x01\0\0\0\x00\x04\x01xyz").section(0)?.unwrap();
/// assert_eq!(format!("{section:?}"), "Section(id 0 \"x\" at 8, 4 bytes at 10)");
/// # Ok::<(), wakemiono::Refusal>(())
/// ```
impl fmt::Debug for Section<'_> {
    fn fmt(&self, f: &mut fmt::Formatter<'_>) -> fmt::Result {
        write!(f, "Section(id {}", self.id())?;
        if let Some(name) = self.name() {
            write!(f, " \"{name}\"")?;
        }
        let (offset, length) = (self.offset(), self.contents().len());
        let contents = self.contents_offset();
        write!(f, " at {offset}, {length} bytes at {contents})")
    }
}

/// The sections of an accepted module, in the order of the file.
///
/// ```
/// use wakemiono::Module;
///
/// let sections = Module::new(b"\0asm\x01\0\0\0\x01\x01\x00\x03\x01\x00").sections()?;
/// assert_eq!(sections.len(), 2);
/// assert_eq!(sections.last().unwrap().offset(), 11);
/// # Ok::<(), wakemiono::Refusal>(())
/// ```
#[derive(Clone)]
pub struct Sections<'a> {
    parts: Parts<'a>,
    /// How many sections there still are.
    left: u64,
}

impl<'a> Sections<'a> {
    /// Those of a module that the walk has accepted and that has so many.
    pub(crate) fn of(module: &'a [u8], count: u64) -> Sections<'a> {
        Sections {
            parts: Parts {
                lent: module,
                next: PREAMBLE_LENGTH,
            },
            left: count,
        }
    }
}

impl<'a> Iterator for Sections<'a> {
    type Item = Section<'a>;

    fn next(&mut self) -> Option<Section<'a>> {
        self.left = self.left.checked_sub(1)?;
        self.parts.next().map(Section)
    }

    fn size_hint(&self) -> (usize, Option<usize>) {
        let left = usize::try_from(self.left).unwrap_or(usize::MAX);
        (left, Some(left))
    }
}

impl ExactSizeIterator for Sections<'_> {}

impl FusedIterator for Sections<'_> {}

impl fmt::Debug for Sections<'_> {
    fn fmt(&self, f: &mut fmt::Formatter<'_>) -> fmt::Result {
        write!(f, "Sections({} left)", self.left)
    }
}

/// The subsections of an accepted name payload, in its order: of each the id and the contents.
///
/// ```
/// use wakemiono::NamePayload;
///
/// let bytes = [0x00, 0x02, 0x01, 0x6D, 0x03, 0x01, 0xFF];
/// let mut subsections = NamePayload::new(&bytes).subsections()?;
/// assert_eq!(subsections.next(), Some((0, &bytes[2..4])));
/// assert_eq!(subsections.next(), Some((3, &bytes[6..])));
/// assert_eq!(subsections.next(), None);
/// # Ok::<(), wakemiono::Refusal>(())
/// ```
#[derive(Clone)]
pub struct Subsections<'a>(Parts<'a>);

impl<'a> Subsections<'a> {
    /// Those of a payload that was accepted.
    pub(crate) fn of(payload: &'a [u8]) -> Subsections<'a> {
        Subsections(Parts {
            lent: payload,
            next: 0,
        })
    }
}

impl<'a> Iterator for Subsections<'a> {
    type Item = (u8, &'a [u8]);

    fn next(&mut self) -> Option<(u8, &'a [u8])> {
        let Part { id, contents, .. } = self.0.next()?;
        Some((id, contents))
    }
}

impl FusedIterator for Subsections<'_> {}

impl fmt::Debug for Subsections<'_> {
    fn fmt(&self, f: &mut fmt::Formatter<'_>) -> fmt::Result {
        write!(f, "Subsections({} bytes left)", self.0.left())
    }
}

/// A part with an id and a size before its contents.
#[derive(Clone, Copy, PartialEq, Eq, Hash)]
struct Part<'a> {
    id: u8,
    /// Where the id stands in what was lent.
    offset: usize,
    /// Where the contents begin there.
    start: usize,
    contents: &'a [u8],
}

impl<'a> Part<'a> {
    /// The part that begins at an offset; none at the end of what was lent.
    fn at(lent: &'a [u8], offset: usize) -> Option<Part<'a>> {
        let (id, behind_id) = lent.get(offset..)?.split_first()?;
        let (length, size_bytes) = number(behind_id);
        let contents = behind_id.get(size_bytes..)?.get(..length)?;
        Some(Part {
            id: *id,
            offset,
            start: offset + 1 + size_bytes,
            contents,
        })
    }
}

/// Parts one behind the other.
#[derive(Clone)]
struct Parts<'a> {
    lent: &'a [u8],
    /// Where the next one begins.
    next: usize,
}

impl<'a> Parts<'a> {
    fn next(&mut self) -> Option<Part<'a>> {
        let part = Part::at(self.lent, self.next)?;
        self.next = part.start + part.contents.len();
        Some(part)
    }

    /// How many bytes are still to come.
    fn left(&self) -> usize {
        self.lent.len().saturating_sub(self.next)
    }
}

/// The most bytes that a number takes.
const LONGEST_NUMBER: usize = 5;

/// How many bits of a number stand in each of its bytes, the lowest ones in the first.
const BITS_IN_A_BYTE: usize = 7;

/// Those bits.
const BITS: u8 = 0x7F;

/// The bit that says that the number goes on in the next byte.
const GOES_ON: u8 = 0x80;

/// The number that starts here in what was accepted, and how many bytes it takes.
fn number(bytes: &[u8]) -> (usize, usize) {
    let mut value = 0;
    let mut taken = 0;
    for byte in bytes.iter().take(LONGEST_NUMBER) {
        value |= usize::from(byte & BITS) << (BITS_IN_A_BYTE * taken);
        taken += 1;
        if byte & GOES_ON == 0 {
            break;
        }
    }
    (value, taken)
}
