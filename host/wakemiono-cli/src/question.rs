//! The questions about names, which all commands put to the library in the same way.

use std::fmt;

use wakemiono::{
    offset_in, DataIndex, ElementIndex, FieldIndex, FunctionIndex, GlobalIndex, LabelIndex,
    LocalIndex, MemoryIndex, Module, Name, Refusal, TableIndex, TagIndex, TypeIndex,
};

use crate::edition::Edition;
use crate::escape;
use crate::json::Json;

/// What a name belongs to.
#[derive(Clone, Copy, Debug, PartialEq, Eq)]
pub enum Kind {
    /// The module itself.
    Module,
    /// A function.
    Function,
    /// A local of a function.
    Local,
    /// A label of a function.
    Label,
    /// A type.
    Type,
    /// A table.
    Table,
    /// A memory.
    Memory,
    /// A global.
    Global,
    /// An element segment.
    Element,
    /// A data segment.
    Data,
    /// A field of a type.
    Field,
    /// A tag.
    Tag,
    /// No name: a subsection that is kept as it is.
    Kept,
}

impl Kind {
    /// Every kind, in the order in which they are explained.
    pub const ALL: [Kind; 13] = [
        Kind::Module,
        Kind::Function,
        Kind::Type,
        Kind::Tag,
        Kind::Table,
        Kind::Memory,
        Kind::Global,
        Kind::Element,
        Kind::Data,
        Kind::Local,
        Kind::Label,
        Kind::Field,
        Kind::Kept,
    ];

    /// The word for it on the command line and in every listing.
    pub const fn word(self) -> &'static str {
        match self {
            Kind::Module => "module",
            Kind::Function => "function",
            Kind::Local => "local",
            Kind::Label => "label",
            Kind::Type => "type",
            Kind::Table => "table",
            Kind::Memory => "memory",
            Kind::Global => "global",
            Kind::Element => "element",
            Kind::Data => "data",
            Kind::Field => "field",
            Kind::Tag => "tag",
            Kind::Kept => "kept",
        }
    }
}

/// What `kept` means, for a person who sees it in a listing.
pub const KEPT_MEANS: &str =
    "wakemiono: `kept ID` is a subsection of the name section whose id this \
     edition of names does not know: it is shown, and kept, as it is.\n";

/// A question to a module's names.
#[derive(Clone, Copy, Debug, PartialEq, Eq)]
pub enum Question {
    /// The module's name.
    Module,
    /// A function's name.
    Function(FunctionIndex),
    /// The name of a local in a function.
    Local(FunctionIndex, LocalIndex),
    /// The name of a label in a function.
    Label(FunctionIndex, LabelIndex),
    /// A type's name.
    Type(TypeIndex),
    /// A table's name.
    Table(TableIndex),
    /// A memory's name.
    Memory(MemoryIndex),
    /// A global's name.
    Global(GlobalIndex),
    /// An element segment's name.
    Element(ElementIndex),
    /// A data segment's name.
    Data(DataIndex),
    /// The name of a field in a type.
    Field(TypeIndex, FieldIndex),
    /// A tag's name.
    Tag(TagIndex),
    /// The contents of the kept subsection with an id.
    Kept(u8),
}

impl Question {
    /// Puts the question to the library, through the module and in its edition.
    pub fn ask<'a, E: Edition>(
        &self,
        module: Module<'a, E>,
    ) -> Result<Option<Answer<'a>>, Refusal> {
        let name = E::ask(*self, module)?;
        Ok(name.map(|name| Answer::new(*self, module.as_bytes(), name)))
    }

    /// What it asks for.
    pub const fn kind(&self) -> Kind {
        match self {
            Question::Module => Kind::Module,
            Question::Function(_) => Kind::Function,
            Question::Local(..) => Kind::Local,
            Question::Label(..) => Kind::Label,
            Question::Type(_) => Kind::Type,
            Question::Table(_) => Kind::Table,
            Question::Memory(_) => Kind::Memory,
            Question::Global(_) => Kind::Global,
            Question::Element(_) => Kind::Element,
            Question::Data(_) => Kind::Data,
            Question::Field(..) => Kind::Field,
            Question::Tag(_) => Kind::Tag,
            Question::Kept(_) => Kind::Kept,
        }
    }

    /// The indices that it names, the enclosing one first.
    pub fn indices(&self) -> Vec<u32> {
        match *self {
            Question::Module => vec![],
            Question::Function(function) => vec![function.0],
            Question::Local(function, local) => vec![function.0, local.0],
            Question::Label(function, label) => vec![function.0, label.0],
            Question::Type(type_) => vec![type_.0],
            Question::Table(table) => vec![table.0],
            Question::Memory(memory) => vec![memory.0],
            Question::Global(global) => vec![global.0],
            Question::Element(element) => vec![element.0],
            Question::Data(data) => vec![data.0],
            Question::Field(type_, field) => vec![type_.0, field.0],
            Question::Tag(tag) => vec![tag.0],
            Question::Kept(id) => vec![id.into()],
        }
    }

    /// Its kind and indices, as the first members of a JSON object.
    pub fn members(&self) -> Vec<(&'static str, Json)> {
        vec![
            ("kind", Json::text(self.kind().word())),
            ("indices", self.indices().into_iter().collect()),
        ]
    }
}

/// The kind and the indices, with one space before each index.
impl fmt::Display for Question {
    fn fmt(&self, f: &mut fmt::Formatter<'_>) -> fmt::Result {
        f.write_str(self.kind().word())?;
        let mut indices = self.indices().into_iter();
        indices.try_for_each(|index| write!(f, " {index}"))
    }
}

/// What the library has found.
#[derive(Clone, Copy, Debug)]
pub struct Answer<'a> {
    lent: &'a [u8],
    found: Name<'a>,
    is_text: bool,
}

impl<'a> Answer<'a> {
    /// The answer to a question, which was found in what was lent.
    pub fn new(question: Question, lent: &'a [u8], found: Name<'a>) -> Answer<'a> {
        Answer {
            lent,
            found,
            is_text: question.kind() != Kind::Kept,
        }
    }

    /// The bytes that were found.
    pub fn bytes(&self) -> &'a [u8] {
        self.found.as_bytes()
    }

    /// Where they lie in the file.
    pub fn offset(&self) -> usize {
        offset_in(self.lent, self.bytes()).expect("what is found lies in what was lent")
    }

    /// Offset, length and the name itself, as members of a JSON object. The contents of a kept
    /// subsection are no text, even where they look like some, and so are always given as bytes.
    pub fn members(&self) -> Vec<(&'static str, Json)> {
        let contents = match self.found.to_str() {
            Ok(text) if self.is_text => ("name", Json::text(text)),
            _ => ("bytes", Json::bytes(self.bytes())),
        };
        vec![
            ("offset", Json::size(self.offset())),
            ("length", Json::size(self.bytes().len())),
            contents,
        ]
    }
}

/// An answer, or none, on a line of its own.
pub fn shown(answer: Option<Answer<'_>>) -> String {
    escape::answer(answer.map(|found| found.bytes()))
}

/// An answer in JSON, or `null` for none.
pub fn json(answer: Option<Answer<'_>>) -> Json {
    answer.map_or(Json::Null, |found| Json::Object(found.members()))
}
