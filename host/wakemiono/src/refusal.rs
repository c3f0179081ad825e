//! Why a call refused what it was lent, and where the fault lies.

use std::error::Error;
use std::fmt;

use crate::Place;

/// Why something was refused: one case for each refusal number of the format's rules.
///
/// Later versions may add reasons; the numbers of these stay as they are, so they may be stored.
///
/// ```
/// use wakemiono::{NamePayload, Reason};
///
/// let refusal = NamePayload::new(&[0x01, 0x02, 0x00, 0x00]).judge().unwrap_err();
/// assert_eq!(refusal.reason(), Reason::LeftOver);
/// ```
#[derive(Clone, Copy, Debug, PartialEq, Eq, Hash)]
#[non_exhaustive]
#[repr(u32)]
pub enum Reason {
    /// 1: the module's preamble is missing or different.
    Preamble = 1,
    /// 2: a number, name or sized part runs past the part that encloses it. The offset is that of
    /// the number, for a name or sized part that of its length.
    RunsPast = 2,
    /// 3: the fifth byte of a number is above 0x0F. The offset is that of the number.
    NumberTooLarge = 3,
    /// 4: text is not UTF-8. The offset is that of the text; from lists, where the name starts in
    /// the joined text.
    NotText = 4,
    /// 5: a section id is above 13. The offset is that of the id.
    SectionId = 5,
    /// 6: a section is repeated or out of order. The offset is that of its id.
    SectionOrder = 6,
    /// 7: a second section `name`, `metadata.code.branch_hint` or `branchHints`. The offset is that of
    /// its id.
    SecondSection = 7,
    /// 8: a data section after `name`, or branch hints after code. The offset is that of the later
    /// section's id.
    SectionTooLate = 8,
    /// 9: a subsection's id is not above the one before. The offset is that of the id.
    SubsectionOrder = 9,
    /// 10: bytes are left over in a subsection, in metadata or in hints, or behind the list of imports or
    /// of bodies. The offset is that of the first of them.
    LeftOver = 10,
    /// 11: an index or code offset is not above the one before. The offset is that of the number;
    /// from lists, its position in the list.
    NotRising = 11,
    /// 12: a branch hint has a size other than 1, or data above 1, and the offset is that of the
    /// size; or one of the older edition has a kind above 1, and the offset is that of the kind.
    NotAHint = 12,
    /// 13: the output is shorter than needed. In place of an offset stands the needed length, of
    /// markers and of rows their number.
    OutputTooShort = 13,
    /// 14: the lists disagree: their counts differ, or the lengths do not add up to the text.
    ListsDisagree = 14,
    /// 15: a subsection, or a payload of older hints, would exceed 4,294,967,295 bytes; or a payload
    /// does that is to have markers, or is asked by them.
    SubsectionTooLong = 15,
    /// 17: in hints of the older edition the byte behind a function is not zero. The offset is that
    /// of the byte.
    NotZero = 17,
    /// 18: a part or a finish came after the finish of the stream. A [`Stream`](crate::Stream) cannot be
    /// used so; the call of the C header can.
    StreamFinished = 18,
    /// 19: a hinted function has no body in the module. The offset is that of its index.
    NoBody = 19,
    /// 20: the locals of a hinted function, or an instruction that starts before the hinted place,
    /// cannot be read by version 1.0. The offset is that of the hint's offset.
    UnreadableCode = 20,
    /// 21: a hint does not stand on `br_if` or `if`. The offset is that of the hint's offset.
    NotOnABranch = 21,
    /// 22: what the quick question is given are no markers of a payload. The lists have unequal
    /// lengths, and the offset is the shorter's length; else the end lies outside the payload, and
    /// it is the length of the lists; else one of the lists does not rise, or an offset is not below
    /// the end, and it is the first such position in the lists, counted from 0.
    NotMarkers = 22,
    /// 23: there is no such customer of a [`SharedTable`](crate::SharedTable): the number is above 15.
    NoCustomer = 23,
    /// 24: the hold is not open for that customer, or is above 7.
    HoldNotOpen = 24,
    /// 25: all eight holds of the customer are in use.
    AllHoldsOpen = 25,
    /// 26: the payload is not stored yet, and no run of free blocks is long enough for it.
    NoRoom = 26,
    /// 27: the check of a block that is needed is wrong, or the payload of a hold is no longer accepted.
    /// A [`SharedTable`](crate::SharedTable) lets nothing else write to its store; the calls of the C
    /// header are lent one.
    StoreDamaged = 27,
    /// 28: a part takes the stream above 18,446,744,073,709,551,615 bytes.
    StreamTooLong = 28,
    /// 29: an import's kind is above 3, or the flag of its limits above 1. The offset is that of the byte.
    UnknownImport = 29,
    /// 30: the store has another length than at the start of the table, or not 1 to 128 blocks of 512
    /// bytes.
    OtherStore = 30,
}

impl Reason {
    /// Every reason, in the order of their numbers. No call gives 16, which the program that lists has
    /// for its own input.
    ///
    /// ```
    /// use wakemiono::Reason;
    ///
    /// assert!(Reason::ALL.windows(2).all(|two| two[0].number() < two[1].number()));
    /// ```
    pub const ALL: &'static [Reason] = &[
        Reason::Preamble,
        Reason::RunsPast,
        Reason::NumberTooLarge,
        Reason::NotText,
        Reason::SectionId,
        Reason::SectionOrder,
        Reason::SecondSection,
        Reason::SectionTooLate,
        Reason::SubsectionOrder,
        Reason::LeftOver,
        Reason::NotRising,
        Reason::NotAHint,
        Reason::OutputTooShort,
        Reason::ListsDisagree,
        Reason::SubsectionTooLong,
        Reason::NotZero,
        Reason::StreamFinished,
        Reason::NoBody,
        Reason::UnreadableCode,
        Reason::NotOnABranch,
        Reason::NotMarkers,
        Reason::NoCustomer,
        Reason::HoldNotOpen,
        Reason::AllHoldsOpen,
        Reason::NoRoom,
        Reason::StoreDamaged,
        Reason::StreamTooLong,
        Reason::UnknownImport,
        Reason::OtherStore,
    ];

    /// The refusal number.
    ///
    /// ```
    /// use wakemiono::Reason;
    ///
    /// assert_eq!(Reason::NotText.number(), 4);
    /// ```
    #[must_use]
    pub const fn number(self) -> u32 {
        self as u32
    }

    /// The reason with a refusal number, or none where there is no such number.
    ///
    /// ```
    /// use wakemiono::Reason;
    ///
    /// assert_eq!(Reason::from_number(13), Some(Reason::OutputTooShort));
    /// assert_eq!(Reason::from_number(0), None);
    /// ```
    #[must_use]
    pub fn from_number(number: u32) -> Option<Reason> {
        let mut all = Reason::ALL.iter().copied();
        all.find(|reason| reason.number() == number)
    }

    /// What to do about it, in a few words for whoever has the module or calls the library. What is
    /// wrong is what the reason displays.
    ///
    /// ```
    /// use wakemiono::Reason;
    ///
    /// assert_eq!(Reason::SecondSection.advice(), "two tools added the section: remove one");
    /// ```
    #[must_use]
    pub const fn advice(self) -> &'static str {
        match self {
            Reason::Preamble => "it is no WebAssembly module of version 1: check what was uploaded",
            Reason::RunsPast => {
                "the file is cut short or a length is wrong: take it from its producer again"
            }
            Reason::NumberTooLarge => "the number does not fit 32 bits: a fault of the producer",
            Reason::NotText => {
                "a name was written in another encoding: a fault of the producer; from lists, \
                 mend the name that starts there"
            }
            Reason::SectionId => {
                "a section of a later version of WebAssembly: ask the producer for one without it"
            }
            Reason::SectionOrder => {
                "a tool put sections together wrongly: take the module from before that tool"
            }
            Reason::SecondSection => "two tools added the section: remove one",
            Reason::SectionTooLate => "a tool added a section at the wrong place: move it",
            Reason::SubsectionOrder => "a fault in the name section: strip it, or write it anew",
            Reason::LeftOver => {
                "a size is too large, or something was added: a fault of the producer"
            }
            Reason::NotRising => {
                "a map is not sorted or names an index twice; from lists, sort them and name each \
                 index once"
            }
            Reason::NotAHint => "no branch hint: a fault of the producer",
            Reason::OutputTooShort => {
                "the offset is the needed length: call again with that much room"
            }
            Reason::ListsDisagree => {
                "as many lengths as indices, and lengths that add up to the text"
            }
            Reason::SubsectionTooLong => "too many names or hints for one section: write fewer",
            Reason::NotZero => {
                "no hints of the older edition, or a damaged file: take it from its producer again"
            }
            Reason::StreamFinished => "the stream is over: begin another for the next module",
            Reason::NoBody => {
                "the hints are those of another build: strip them, or take both from one build"
            }
            Reason::UnreadableCode => {
                "code of a later version of WebAssembly, or a damaged file: its hints cannot be checked"
            }
            Reason::NotOnABranch => {
                "the code was changed after its hints were written, or a tool put them beside the branch, as wabt does before a folded one: strip them, or write them anew"
            }
            Reason::NotMarkers => "the markers are not those of the payload: make them anew",
            Reason::NoCustomer => {
                "customers are 0 to 15: number them so, and start another table for more than sixteen"
            }
            Reason::HoldNotOpen => {
                "the hold was closed, or is another customer's: use the one that the open gave, until \
                 its close"
            }
            Reason::AllHoldsOpen => "close a hold that is no longer asked, and open again",
            Reason::NoRoom => {
                "compact the table; close holds, so that payloads without users give their blocks back; \
                 or start a table over a larger store"
            }
            Reason::StoreDamaged => {
                "something else wrote to the store: start another table over it, and open the payloads \
                 again"
            }
            Reason::StreamTooLong => {
                "more bytes than can be counted: finish, and begin another stream"
            }
            Reason::UnknownImport => {
                "an import of a later version of WebAssembly, or a damaged file: its hints cannot be checked"
            }
            Reason::OtherStore => {
                "a store is 1 to 128 blocks of 512 bytes: lend the one that the table was started over, \
                 all of it"
            }
        }
    }
}

/// What is wrong, without the place.
///
/// ```
/// use wakemiono::Reason;
///
/// assert_eq!(Reason::NotText.to_string(), "text is not UTF-8");
/// ```
impl fmt::Display for Reason {
    fn fmt(&self, f: &mut fmt::Formatter<'_>) -> fmt::Result {
        f.pad(match self {
            Reason::Preamble => "the preamble 00 61 73 6D 01 00 00 00 is missing or different",
            Reason::RunsPast => "a number, name or sized part runs past the part that encloses it",
            Reason::NumberTooLarge => "the fifth byte of a number is above 0x0F",
            Reason::NotText => "text is not UTF-8",
            Reason::SectionId => "a section id is above 13",
            Reason::SectionOrder => "a section is repeated or out of order",
            Reason::SecondSection => {
                "a section `name`, `metadata.code.branch_hint` or `branchHints` is the second"
            }
            Reason::SectionTooLate => "a data section follows `name`, or branch hints follow code",
            Reason::SubsectionOrder => "a subsection id is not above the one before",
            Reason::LeftOver => {
                "bytes are left over in a subsection, in metadata or in hints, or behind imports or bodies"
            }
            Reason::NotRising => "an index or code offset is not above the one before",
            Reason::NotAHint => "a branch hint has a size other than 1, or data or a kind above 1",
            Reason::OutputTooShort => "the output is shorter than needed",
            Reason::ListsDisagree => {
                "the lists disagree: their counts differ, or the lengths do not add up to the text"
            }
            Reason::SubsectionTooLong => {
                "a subsection, or a payload of older hints, would exceed 4,294,967,295 bytes, or a \
                 payload for markers does"
            }
            Reason::NotZero => "the byte behind a function of older hints is not zero",
            Reason::StreamFinished => "a part or a finish came after the finish of the stream",
            Reason::NoBody => "a hinted function has no body in the module",
            Reason::UnreadableCode => {
                "the locals or an instruction before a hint cannot be read by version 1.0"
            }
            Reason::NotOnABranch => "a hint does not stand on br_if or if",
            Reason::NotMarkers => {
                "the lists are no markers: their lengths differ, the end lies outside the payload, \
                 or a position does not rise or is not below the end"
            }
            Reason::NoCustomer => "there is no such customer: the number is above 15",
            Reason::HoldNotOpen => "the hold is not open for that customer, or is above 7",
            Reason::AllHoldsOpen => "all eight holds of the customer are in use",
            Reason::NoRoom => {
                "the payload is not stored yet, and no run of free blocks is long enough for it"
            }
            Reason::StoreDamaged => {
                "the check of a needed block is wrong, or the stored payload is no longer accepted"
            }
            Reason::StreamTooLong => {
                "a part takes the stream above 18,446,744,073,709,551,615 bytes"
            }
            Reason::UnknownImport => {
                "an import's kind is above 3, or the flag of its limits above 1"
            }
            Reason::OtherStore => {
                "the store has another length than at the start, or not 1 to 128 blocks of 512 bytes"
            }
        })
    }
}

/// What the offset of a refusal counts.
#[derive(Clone, Copy, PartialEq, Eq, Hash)]
enum Lent {
    Bytes,
    Lists,
}

/// A refusal: what is wrong with what was lent, and where. Nothing that was lent has changed, but for
/// the work buffer of [`SharedTable::open_with`](crate::SharedTable::open_with) after two of them.
///
/// Offsets count from the start of what was lent: of the payload, or of the module where the
/// question was put to a [`Module`](crate::Module).
///
/// ```
/// use wakemiono::NamePayload;
///
/// let refusal = NamePayload::new(&[0x00, 0x03, 0x02, 0x61, 0xFF]).judge().unwrap_err();
/// assert_eq!((refusal.number(), refusal.offset()), (4, 3));
/// assert_eq!(refusal.to_string(), "text is not UTF-8: it starts at byte 0x3 (3)");
/// ```
#[derive(Clone, Copy, PartialEq, Eq, Hash)]
pub struct Refusal {
    reason: Reason,
    offset: u64,
    lent: Lent,
}

impl Refusal {
    pub(crate) const fn in_bytes(reason: Reason, offset: u64) -> Refusal {
        Refusal {
            reason,
            offset,
            lent: Lent::Bytes,
        }
    }

    pub(crate) const fn in_lists(reason: Reason, offset: u64) -> Refusal {
        Refusal {
            reason,
            offset,
            lent: Lent::Lists,
        }
    }

    /// The refusal number, which is fixed for each reason.
    ///
    /// ```
    /// use wakemiono::Module;
    ///
    /// assert_eq!(Module::new(b"no module").section_count().unwrap_err().number(), 1);
    /// ```
    #[must_use]
    pub const fn number(&self) -> u32 {
        self.reason.number()
    }

    /// The offset of the fault; each [`Reason`] says which offset it is.
    ///
    /// ```
    /// use wakemiono::Metadata;
    ///
    /// let count_too_large = [0xFF, 0xFF, 0xFF, 0xFF, 0x0F, 0x00];
    /// assert_eq!(Metadata::new(&count_too_large).judge().unwrap_err().offset(), 6);
    /// ```
    #[must_use]
    pub const fn offset(&self) -> u64 {
        self.offset
    }

    /// The reason.
    ///
    /// ```
    /// use wakemiono::{Module, Reason};
    ///
    /// assert_eq!(Module::new(&[]).section_count().unwrap_err().reason(), Reason::Preamble);
    /// ```
    #[must_use]
    pub const fn reason(&self) -> Reason {
        self.reason
    }

    /// What to do about this very refusal: as [`Reason::advice`], which speaks of both bytes and lists
    /// where either may have been lent, but only of what was.
    ///
    /// ```
    /// use wakemiono::NamePayload;
    ///
    /// let refusal = NamePayload::new(&[0x00, 0x02, 0x01, 0xFF]).judge().unwrap_err();
    /// let advice = "a name was written in another encoding: a fault of the producer";
    /// assert_eq!(refusal.advice(), advice);
    /// ```
    #[must_use]
    pub const fn advice(&self) -> &'static str {
        match (self.reason, self.lent) {
            (Reason::NotText, Lent::Bytes) => {
                "a name was written in another encoding: a fault of the producer"
            }
            (Reason::NotText, Lent::Lists) => {
                "a name is written in another encoding: mend the name that starts there"
            }
            (Reason::NotRising, Lent::Bytes) => {
                "a map is not sorted or names an index twice: a fault of the producer"
            }
            (Reason::NotRising, Lent::Lists) => "sort the lists, and name each index once",
            (reason, _) => reason.advice(),
        }
    }

    /// The refusal of a payload that lies in a module, as it is counted from the module's start: what
    /// a question put through the module gives. It is for a payload that was taken out of a module
    /// which a [`Stream`](crate::Stream) has walked over.
    ///
    /// ```
    /// use wakemiono::{Module, NamePayload, Place};
    ///
    /// let module = b"\0asm\x01\0\0\0\x00\x09\x04name\x01\x02\x00\x00";
    /// let place = Place { offset: 15, length: 4 };
    /// let refusal = NamePayload::new(&module[15..]).judge().unwrap_err();
    /// assert_eq!((refusal.number(), refusal.offset()), (10, 3));
    /// assert_eq!(refusal.in_module(place).offset(), 18);
    /// assert_eq!(Module::new(module).module_name(), Err(refusal.in_module(place)));
    /// ```
    ///
    /// A refusal whose offset counts no bytes of a payload stays as it is: one of lists, of an output,
    /// of a stream or of a shared table.
    ///
    /// ```
    /// use wakemiono::{NamePayload, Place};
    ///
    /// let payload = NamePayload::new(&[0x00, 0x02, 0x01, 0x6D]);
    /// let refusal = payload.canonical_into(&mut []).unwrap_err();
    /// assert_eq!(refusal.in_module(Place { offset: 15, length: 4 }), refusal);
    /// ```
    #[must_use]
    pub const fn in_module(self, payload: Place) -> Refusal {
        match (self.lent, self.place()) {
            (Lent::Bytes, Some(_)) => {
                Refusal::in_bytes(self.reason, payload.offset.saturating_add(self.offset))
            }
            _ => self,
        }
    }

    /// What the offset is that of, or none where it counts no bytes.
    const fn place(&self) -> Option<&'static str> {
        match (self.reason, self.lent) {
            (
                Reason::OutputTooShort
                | Reason::ListsDisagree
                | Reason::SubsectionTooLong
                | Reason::StreamFinished
                | Reason::NotMarkers
                | Reason::NoCustomer
                | Reason::HoldNotOpen
                | Reason::AllHoldsOpen
                | Reason::NoRoom
                | Reason::StoreDamaged
                | Reason::StreamTooLong
                | Reason::OtherStore,
                _,
            )
            | (Reason::NotRising, Lent::Lists) => None,
            (Reason::NotText, Lent::Lists) => Some("in the joined text the name starts at"),
            (Reason::Preamble, _) => Some("it belongs at"),
            (Reason::RunsPast, _) => Some("the number, or the length of the part, starts at"),
            (Reason::NumberTooLarge, _) => Some("the number starts at"),
            (Reason::NotText | Reason::NotRising, _) => Some("it starts at"),
            (Reason::SectionId | Reason::SubsectionOrder | Reason::NotZero, _) => {
                Some("it stands at")
            }
            (Reason::SectionOrder | Reason::SecondSection, _) => Some("its id stands at"),
            (Reason::SectionTooLate, _) => Some("the id of the later section stands at"),
            (Reason::LeftOver, _) => Some("the first of them stands at"),
            (Reason::NotAHint, _) => Some("its size, or its kind, stands at"),
            (Reason::NoBody, _) => Some("the function's index starts at"),
            (Reason::UnreadableCode | Reason::NotOnABranch, _) => {
                Some("the hint's offset starts at")
            }
            (Reason::UnknownImport, _) => Some("the kind, or the flag, stands at"),
        }
    }
}

/// As a person reads it in a failed test: number, reason and offset.
///
/// ```
/// use wakemiono::Module;
///
/// let refusal = Module::new(&[]).section_count().unwrap_err();
/// assert_eq!(format!("{refusal:?}"), "Refusal { number: 1, reason: Preamble, offset: 0 }");
/// ```
impl fmt::Debug for Refusal {
    fn fmt(&self, f: &mut fmt::Formatter<'_>) -> fmt::Result {
        f.debug_struct("Refusal")
            .field("number", &self.number())
            .field("reason", &self.reason)
            .field("offset", &self.offset)
            .finish()
    }
}

/// A sentence that says what is wrong and where.
///
/// ```
/// use wakemiono::Hints;
///
/// let refusal = Hints::new(&[0x01, 0x02, 0x01, 0x05, 0x01, 0x02]).judge().unwrap_err();
/// assert_eq!(
///     refusal.to_string(),
///     "a branch hint has a size other than 1, or data or a kind above 1: its size, or its kind, \
///      stands at byte 0x4 (4)"
/// );
/// ```
impl fmt::Display for Refusal {
    fn fmt(&self, f: &mut fmt::Formatter<'_>) -> fmt::Result {
        let at = self.offset;
        write!(f, "{}", self.reason)?;
        match (self.reason, self.place()) {
            (_, Some(place)) => write!(f, ": {place} byte {at:#X} ({at})"),
            (Reason::OutputTooShort, None) => write!(f, ": the needed length is {at}"),
            (Reason::NotRising, None) => {
                write!(f, ": its position in the list is {at}, counted from 0")
            }
            (Reason::NotMarkers, None) => write!(
                f,
                ": that position, counted from 0, or the length of the shorter list is {at}"
            ),
            (_, None) => Ok(()),
        }
    }
}

/// So that it goes through `?` as any error does, and is found again in a boxed one.
///
/// ```
/// use std::error::Error;
/// use wakemiono::{Module, Refusal};
///
/// fn sections(module: &[u8]) -> Result<u64, Box<dyn Error>> {
///     Ok(Module::new(module).section_count()?)
/// }
///
/// let error = sections(b"no module").unwrap_err();
/// assert_eq!(error.downcast_ref().map(Refusal::number), Some(1));
/// ```
impl Error for Refusal {}
