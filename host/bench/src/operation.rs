//! What is measured, of whom, and under which number.

/// The operations that are measured.
#[derive(Clone, Copy, PartialEq, Eq, Debug)]
#[repr(u8)]
pub enum Operation {
    Walk,
    Judge,
    Tell,
    LookUp,
    Markers,
    QuickFirst,
    QuickLast,
    Why,
    Rewrite,
    WriteFromLists,
    JudgeHints,
    TellHints,
    LookHintUp,
    RewriteHints,
    WideJudge,
    WideTell,
    WideLookUp,
    WideRewrite,
    JudgeOldHints,
    LookOldHintUp,
    TellOldHints,
    RewriteOldHints,
    PairLookUp,
    SeparateLookUp,
    OwnLookUp,
    Join,
    SeparateRewrite,
    OwnRewrite,
    WidePairLookUp,
    WideSeparateLookUp,
    WideOwnLookUp,
    WideJoin,
    WideSeparateRewrite,
    WideOwnRewrite,
    StreamWhole,
    StreamInParts,
    StreamInBytes,
    OnBranches,
    TableOpen,
    TableLookUp,
    TableClose,
    TableCompact,
    ListFunctions,
    ListLocals,
    WideListGlobals,
    ListHints,
    ListMetadata,
    ListOldHints,
}

impl Operation {
    /// As the table calls it.
    pub fn words(self) -> &'static str {
        match self {
            Operation::Walk => "walk",
            Operation::Judge => "judge",
            Operation::Tell => "tell",
            Operation::LookUp => "judge, look last function up",
            Operation::Markers => "markers",
            Operation::QuickFirst => "quick, first name",
            Operation::QuickLast => "quick, last name",
            Operation::Why => "why, last function",
            Operation::Rewrite => "rewrite",
            Operation::WriteFromLists => "write from lists",
            Operation::JudgeHints => "judge hints",
            Operation::TellHints => "tell hints",
            Operation::LookHintUp => "judge hints, look last up",
            Operation::RewriteHints => "rewrite hints",
            Operation::WideJudge => "wide judge",
            Operation::WideTell => "wide tell",
            Operation::WideLookUp => "wide judge, look last global up",
            Operation::WideRewrite => "wide rewrite",
            Operation::JudgeOldHints => "judge old hints",
            Operation::LookOldHintUp => "judge old hints, look greatest up",
            Operation::TellOldHints => "tell old hints",
            Operation::RewriteOldHints => "rewrite old hints",
            Operation::PairLookUp => "pair, last function",
            Operation::SeparateLookUp => "separate alone, that function",
            Operation::OwnLookUp => "own alone, that function",
            Operation::Join => "join",
            Operation::SeparateRewrite => "rewrite separate",
            Operation::OwnRewrite => "rewrite own",
            Operation::WidePairLookUp => "wide pair, last global",
            Operation::WideSeparateLookUp => "wide separate alone, that global",
            Operation::WideOwnLookUp => "wide own alone, that global",
            Operation::WideJoin => "wide join",
            Operation::WideSeparateRewrite => "wide rewrite separate",
            Operation::WideOwnRewrite => "wide rewrite own",
            Operation::StreamWhole => "stream, one part",
            Operation::StreamInParts => "stream, parts of 4096",
            Operation::StreamInBytes => "stream, parts of 1",
            Operation::OnBranches => "hints on branches",
            Operation::TableOpen => "table, open what is stored",
            Operation::TableLookUp => "table, last function",
            Operation::TableClose => "table, close",
            Operation::TableCompact => "table, compact",
            Operation::ListFunctions => "list functions",
            Operation::ListLocals => "list locals",
            Operation::WideListGlobals => "wide list globals",
            Operation::ListHints => "list hints",
            Operation::ListMetadata => "list metadata",
            Operation::ListOldHints => "list old hints",
        }
    }
}

/// Whose instructions are counted.
#[derive(Clone, Copy, PartialEq, Eq, Debug)]
#[repr(u8)]
pub enum Who {
    Library,
    SecondReader,
}

impl Who {
    pub const BOTH: [Who; 2] = [Who::Library, Who::SecondReader];

    pub fn words(self) -> &'static str {
        match self {
            Who::Library => "library",
            Who::SecondReader => "second reader",
        }
    }
}

/// The number of a region. A run has one payload, so that the payload has no part in it.
pub const fn region(operation: Operation, who: Who) -> u8 {
    operation as u8 * 2 + who as u8
}
