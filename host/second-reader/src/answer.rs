//! What a call answers: the structs of the boundary, their kinds, and the numbered reasons of a
//! refusal.

use crate::reading::Part;

/// The answer to any call but those that say why, those on two payloads and the finish of a stream.
/// Fields that a kind does not use are 0.
#[derive(Clone, Copy, Debug, PartialEq, Eq)]
#[must_use]
pub struct Answer {
    /// Which kind of answer this is; never one of the reasons.
    pub kind: Kind,
    /// The number of the refusal; for a section that was found, its id.
    pub code: u32,
    /// Where the thing found lies in what was lent, for markers where their subsection ends; for a
    /// refusal, the offset that the rules give with it.
    pub offset: u64,
    /// The length in bytes of the thing found; for the walk, the count of sections, and for markers
    /// theirs; for what a table opens, the hold.
    pub length: u64,
}

/// The answer to why a function or a local has no name. Fields that a kind does not use are 0, or
/// none.
#[derive(Clone, Copy, Debug, PartialEq, Eq)]
#[must_use]
pub struct Why {
    /// Found where there is a name, else one of the three reasons or a refusal.
    pub kind: Kind,
    /// The number of the refusal; for a name that was found, the id of its subsection.
    pub code: u32,
    /// The offset that the rules give with a refusal.
    pub offset: u64,
    /// The position of the name's entry in its map, from 0.
    pub position: u64,
    /// The nearest index below that the map has.
    pub below: Option<u32>,
    /// The nearest index above that the map has.
    pub above: Option<u32>,
}

/// The answer to a call on two payloads. Fields that a kind does not use are 0, or nobody.
#[derive(Clone, Copy, Debug, PartialEq, Eq)]
#[must_use]
pub struct PairAnswer {
    /// Found, none or refused.
    pub kind: Kind,
    /// The number of the refusal.
    pub code: u32,
    /// Where the thing found lies in the payload that supplied it; for a refusal, the offset that the
    /// rules give with it.
    pub offset: u64,
    /// The length in bytes of the thing found, or of the joined payload.
    pub length: u64,
    /// Who supplied the thing found, or is refused.
    pub whose: Whose,
}

/// The answer to the finish of a stream. Fields that a kind does not use are 0, or none.
#[derive(Clone, Copy, Debug, PartialEq, Eq)]
#[must_use]
pub struct StreamAnswer {
    /// Found or refused.
    pub kind: Kind,
    /// The number of the refusal.
    pub code: u32,
    /// The offset that the rules give with a refusal.
    pub offset: u64,
    /// The count of sections.
    pub length: u64,
    /// Where the payload of names lies.
    pub name: Option<Place>,
    /// Where the payload of branch hints lies.
    pub hints: Option<Place>,
    /// Where the payload of hints of the older edition lies.
    pub old_hints: Option<Place>,
}

/// Where a payload lies in a module that arrived.
#[derive(Clone, Copy, Debug, PartialEq, Eq)]
pub struct Place {
    /// Its offset from the module's first byte.
    pub offset: u64,
    /// Its length in bytes.
    pub length: u64,
}

/// Which of two payloads. Their numbers are fixed.
#[derive(Clone, Copy, Debug, PartialEq, Eq)]
#[repr(u64)]
pub enum Whose {
    /// Neither: there is none, or it is about the joined payload.
    Nobody = 0,
    /// The one that came apart from the module.
    Separate = 1,
    /// The one of the module itself.
    Own = 2,
}

/// The kinds of answer. Their numbers are fixed.
#[derive(Clone, Copy, Debug, PartialEq, Eq)]
#[repr(u32)]
pub enum Kind {
    /// Accepted, and there is no such thing.
    None = 0,
    /// Accepted and found, or written.
    Found = 1,
    /// Refused, for the reason that the code gives.
    Refused = 2,
    /// A hint that the branch is unlikely to be taken.
    Unlikely = 3,
    /// A hint that the branch is likely to be taken.
    Likely = 4,
    /// A reason for no name: there is no subsection for it.
    NoSubsection = 5,
    /// A reason for no name: the subsection has no group for the function.
    NoGroup = 6,
    /// A reason for no name: the map does not have the index.
    NoEntry = 7,
}

/// The reasons of a refusal. Their numbers are fixed.
#[derive(Clone, Copy, Debug, PartialEq, Eq)]
#[repr(u32)]
pub enum Reason {
    /// The preamble is missing or different.
    Preamble = 1,
    /// A number, name or sized part runs past its enclosing part.
    PastEnd = 2,
    /// The fifth byte of a number is above 0x0F.
    NumberTooLarge = 3,
    /// Text is not UTF-8.
    NotUtf8 = 4,
    /// A section id is above 13.
    UnknownSection = 5,
    /// A section is repeated or out of order.
    SectionOrder = 6,
    /// A second section of names or of hints.
    SecondOfItsName = 7,
    /// Data after names, or hints after code.
    TooLate = 8,
    /// A subsection id is not above the one before.
    SubsectionOrder = 9,
    /// Bytes are left over in a subsection, in metadata, in hints, or behind a list of imports or of
    /// bodies.
    LeftOver = 10,
    /// An index or offset is not above the one before.
    NotAscending = 11,
    /// A hint has a size other than 1, or data above 1; of the older edition, a kind above 1.
    NotAHint = 12,
    /// The output is shorter than needed.
    OutputTooShort = 13,
    /// The lists disagree about their counts or the length of the text.
    ListsDisagree = 14,
    /// The subsection, or the payload of older hints, to be written would exceed 4,294,967,295 bytes;
    /// or the payload for markers does.
    SubsectionTooLarge = 15,
    /// A program's input is above 65,536 bytes.
    InputTooLarge = 16,
    /// The byte behind the function of an entry of the older hints is not zero.
    NotZero = 17,
    /// A part or a finish of a stream comes after its finish.
    AfterFinish = 18,
    /// A function that has hints has no body in the module.
    NoBody = 19,
    /// The locals, or an instruction that begins before a hinted place, cannot be read by version 1.0.
    UnreadableCode = 20,
    /// No `br_if` and no `if` begins at a hinted place.
    NotOnABranch = 21,
    /// The lists that the quick question is given are of unequal length, have an end outside the
    /// payload, do not rise, or do not stay below the end.
    NotMarkers = 22,
    /// A table has no such customer.
    NoCustomer = 23,
    /// The hold of a customer is not open, or there is no such hold.
    NotOpen = 24,
    /// All eight holds of a customer are open.
    AllHoldsOpen = 25,
    /// A payload is not stored yet, and no run of free blocks is long enough for it.
    NoRoom = 26,
    /// The check of a needed block is wrong, or what a hold has open is no longer accepted.
    Damaged = 27,
    /// A part takes the total of a stream above 18,446,744,073,709,551,615 bytes.
    StreamTooLong = 28,
    /// The kind of an import is above 3, or the flag of its limits above 1.
    UnknownImport = 29,
    /// The store is not the one that the table was started over, by its length, or is not 1 to 128 blocks.
    OtherStore = 30,
}

impl Reason {
    pub(crate) fn at(self, offset: usize) -> Refusal {
        self.with(offset as u64)
    }

    /// For what is measured and not lent, which may exceed the address space.
    pub(crate) fn with(self, offset: u64) -> Refusal {
        Refusal {
            reason: self,
            offset,
        }
    }
}

/// Why and where reading stopped.
#[derive(Clone, Copy, Debug, PartialEq, Eq)]
pub(crate) struct Refusal {
    reason: Reason,
    offset: u64,
}

impl Answer {
    const NONE: Answer = Answer {
        kind: Kind::None,
        code: 0,
        offset: 0,
        length: 0,
    };

    pub(crate) fn found(offset: u64, length: u64) -> Answer {
        Answer {
            kind: Kind::Found,
            offset,
            length,
            ..Answer::NONE
        }
    }

    pub(crate) fn of_section(id: u8, offset: usize, length: usize) -> Answer {
        Answer {
            code: u32::from(id),
            ..Answer::found(offset as u64, length as u64)
        }
    }

    /// For what is counted from the start: sections walked, bytes judged, bytes written.
    pub(crate) fn counted(count: Result<u64, Refusal>) -> Answer {
        count.map_or_else(Answer::from, |count| Answer::found(0, count))
    }

    /// For questions whose answer may be missing.
    pub(crate) fn of<T: Into<Answer>>(asked: Result<Option<T>, Refusal>) -> Answer {
        match asked {
            Ok(Some(answer)) => answer.into(),
            Ok(None) => Answer::NONE,
            Err(refusal) => refusal.into(),
        }
    }
}

impl From<Kind> for Answer {
    fn from(kind: Kind) -> Answer {
        Answer {
            kind,
            ..Answer::NONE
        }
    }
}

impl From<Part<'_>> for Answer {
    fn from(part: Part<'_>) -> Answer {
        Answer::found(part.offset() as u64, part.bytes().len() as u64)
    }
}

impl From<Refusal> for Answer {
    fn from(refusal: Refusal) -> Answer {
        Answer {
            kind: Kind::Refused,
            code: refusal.reason as u32,
            offset: refusal.offset,
            length: 0,
        }
    }
}

impl PairAnswer {
    /// The answer that one of two payloads gives, or that is of both.
    pub(crate) fn new(answer: Answer, whose: Whose) -> PairAnswer {
        PairAnswer {
            kind: answer.kind,
            code: answer.code,
            offset: answer.offset,
            length: answer.length,
            whose,
        }
    }
}

/// The answer of the walk, or a refusal, without any places.
impl From<Answer> for StreamAnswer {
    fn from(answer: Answer) -> StreamAnswer {
        StreamAnswer {
            kind: answer.kind,
            code: answer.code,
            offset: answer.offset,
            length: answer.length,
            name: None,
            hints: None,
            old_hints: None,
        }
    }
}

impl Why {
    /// Where a name stands: in which subsection, and at which position of its map.
    pub(crate) fn found(subsection: u8, position: u64) -> Why {
        Why {
            code: u32::from(subsection),
            position,
            ..Why::from(Kind::Found)
        }
    }

    /// The map does not have the index, and these are the nearest that it has.
    pub(crate) fn no_entry(below: Option<u32>, above: Option<u32>) -> Why {
        Why {
            below,
            above,
            ..Why::from(Kind::NoEntry)
        }
    }
}

impl From<Kind> for Why {
    fn from(kind: Kind) -> Why {
        Why {
            kind,
            code: 0,
            offset: 0,
            position: 0,
            below: None,
            above: None,
        }
    }
}

impl From<Refusal> for Why {
    fn from(refusal: Refusal) -> Why {
        Why {
            code: refusal.reason as u32,
            offset: refusal.offset,
            ..Why::from(Kind::Refused)
        }
    }
}
