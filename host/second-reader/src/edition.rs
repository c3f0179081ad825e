//! The two editions of names: which ids are known in each, and what their subsections hold.

/// The ids that an edition may know.
pub(crate) mod id {
    pub const MODULE: u8 = 0;
    pub const FUNCTIONS: u8 = 1;
    pub const LOCALS: u8 = 2;
    pub const LABELS: u8 = 3;
    pub const TYPES: u8 = 4;
    pub const TABLES: u8 = 5;
    pub const MEMORIES: u8 = 6;
    pub const GLOBALS: u8 = 7;
    pub const ELEMENTS: u8 = 8;
    pub const DATA: u8 = 9;
    pub const FIELDS: u8 = 10;
    /// The table and the text of the source say 11, and they decide over the one production that
    /// prints 1.
    pub const TAGS: u8 = 11;
}

/// By which table of ids a name payload is read.
#[derive(Clone, Copy)]
pub(crate) enum Edition {
    /// Six ids are known: module, functions, locals, types, fields and tags.
    First,
    /// These and the six of the extended name section.
    Wider,
}

/// What a subsection holds.
pub(crate) enum Form {
    /// One name.
    Name,
    /// A name map or an indirect one.
    List(Shape),
    /// Bytes that are not looked into.
    Kept,
}

/// How the elements of a list are built.
#[derive(Clone, Copy)]
pub(crate) enum Shape {
    /// Each is a number and a sized part: a name map, or the items of a function.
    Flat,
    /// Each is a number and a flat list: an indirect map, or a metadata payload.
    Nested,
}

impl Edition {
    /// What the subsection of an id holds.
    pub fn form(self, subsection_id: u8) -> Form {
        match (self, subsection_id) {
            (_, id::MODULE) => Form::Name,
            (_, id::FUNCTIONS | id::TYPES | id::TAGS) => Form::List(Shape::Flat),
            (_, id::LOCALS | id::FIELDS) => Form::List(Shape::Nested),
            (Edition::Wider, id::TABLES | id::MEMORIES | id::GLOBALS) => Form::List(Shape::Flat),
            (Edition::Wider, id::ELEMENTS | id::DATA) => Form::List(Shape::Flat),
            (Edition::Wider, id::LABELS) => Form::List(Shape::Nested),
            _ => Form::Kept,
        }
    }
}
