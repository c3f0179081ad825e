//! The editions of names, with what this program must know of each.

use wakemiono::{
    First, Module, Name, NamePayload, Pair, PairRefusal, Refusal, SuppliedName, Wider,
};

use crate::entries::{Rows, Subsection};
use crate::json::Json;
use crate::question::{Kind, Question};

/// An edition of names.
pub trait Edition: wakemiono::Edition {
    /// The ids of the subsections that it knows, and what they hold. All others are kept.
    const KNOWN: &'static [(u8, Kind)];

    /// What JSON calls it. The first edition is not named there: its JSON is older than the other.
    const IN_JSON: Option<&'static str>;

    /// Puts a question to a module. What only another edition has gets none.
    fn ask<'a>(question: Question, module: Module<'a, Self>) -> Result<Option<Name<'a>>, Refusal>;

    /// Puts a question to two payloads, in the same way.
    fn ask_pair<'s, 'o>(
        question: Question,
        pair: Pair<'s, 'o, Self>,
    ) -> Result<Option<SuppliedName<'s, 'o>>, PairRefusal>;

    /// All that a payload has in a subsection. What only another edition knows gets nothing.
    fn rows(of: Subsection, payload: NamePayload<'_, Self>) -> Result<Rows<'_>, Refusal>;

    /// What the subsection with an id holds.
    fn kind(id: u8) -> Kind {
        let row = Self::KNOWN.iter().find(|(known, _)| *known == id);
        row.map_or(Kind::Kept, |(_, kind)| *kind)
    }

    /// Whether there may be something of a kind.
    fn has(kind: Kind) -> bool {
        kind == Kind::Kept || Self::KNOWN.iter().any(|(_, known)| *known == kind)
    }

    /// The member of a JSON object that says which edition it is, where one says it.
    fn members() -> Vec<(&'static str, Json)> {
        let word = Self::IN_JSON.into_iter();
        word.map(|word| ("edition", Json::text(word))).collect()
    }
}

/// Puts a question that both editions have; none of the others has an answer.
macro_rules! ask_in_both {
    ($question:expr, $asked:expr) => {
        match $question {
            Question::Module => $asked.module_name(),
            Question::Function(function) => $asked.function_name(function),
            Question::Local(function, local) => $asked.local_name(function, local),
            Question::Type(type_) => $asked.type_name(type_),
            Question::Field(type_, field) => $asked.field_name(type_, field),
            Question::Tag(tag) => $asked.tag_name(tag),
            Question::Kept(id) => Ok($asked.kept(id)?.map(Into::into)),
            _ => Ok(None),
        }
    };
}

/// Puts a question of the wider edition.
macro_rules! ask_in_wider {
    ($question:expr, $asked:expr) => {
        match $question {
            Question::Label(function, label) => $asked.label_name(function, label),
            Question::Table(table) => $asked.table_name(table),
            Question::Memory(memory) => $asked.memory_name(memory),
            Question::Global(global) => $asked.global_name(global),
            Question::Element(element) => $asked.element_name(element),
            Question::Data(data) => $asked.data_name(data),
            other => ask_in_both!(other, $asked),
        }
    };
}

/// Rows of names that have one index.
macro_rules! by_index {
    ($names:expr, $question:path) => {
        Ok(Box::new(
            $names?.map(|(index, name)| ($question(index), name)),
        ))
    };
}

/// Rows of names that have an index within another.
macro_rules! by_two_indices {
    ($names:expr, $question:path) => {
        Ok(Box::new($names?.map(|((outer, inner), name)| {
            ($question(outer, inner), name)
        })))
    };
}

/// Lists a subsection of a kind that both editions have; there is nothing of the others.
fn list_in_both<E: Edition>(
    of: Subsection,
    payload: NamePayload<'_, E>,
) -> Result<Rows<'_>, Refusal> {
    match of.kind {
        Kind::Module => {
            let name = payload.module_name()?;
            Ok(Box::new(
                name.map(|name| (Question::Module, name)).into_iter(),
            ))
        }
        Kind::Function => by_index!(payload.function_names(), Question::Function),
        Kind::Type => by_index!(payload.type_names(), Question::Type),
        Kind::Tag => by_index!(payload.tag_names(), Question::Tag),
        Kind::Local => by_two_indices!(payload.local_names(), Question::Local),
        Kind::Field => by_two_indices!(payload.field_names(), Question::Field),
        Kind::Kept => {
            let contents = payload.kept(of.id)?.map(Name::from);
            let question = Question::Kept(of.id);
            Ok(Box::new(
                contents.map(|contents| (question, contents)).into_iter(),
            ))
        }
        _ => Ok(Box::new([].into_iter())),
    }
}

impl Edition for First {
    const KNOWN: &'static [(u8, Kind)] = &[
        (0, Kind::Module),
        (1, Kind::Function),
        (2, Kind::Local),
        (4, Kind::Type),
        (10, Kind::Field),
        (11, Kind::Tag),
    ];

    const IN_JSON: Option<&'static str> = None;

    fn ask<'a>(question: Question, module: Module<'a, First>) -> Result<Option<Name<'a>>, Refusal> {
        ask_in_both!(question, module)
    }

    fn ask_pair<'s, 'o>(
        question: Question,
        pair: Pair<'s, 'o, First>,
    ) -> Result<Option<SuppliedName<'s, 'o>>, PairRefusal> {
        ask_in_both!(question, pair)
    }

    fn rows(of: Subsection, payload: NamePayload<'_, First>) -> Result<Rows<'_>, Refusal> {
        list_in_both(of, payload)
    }
}

impl Edition for Wider {
    const KNOWN: &'static [(u8, Kind)] = &[
        (0, Kind::Module),
        (1, Kind::Function),
        (2, Kind::Local),
        (3, Kind::Label),
        (4, Kind::Type),
        (5, Kind::Table),
        (6, Kind::Memory),
        (7, Kind::Global),
        (8, Kind::Element),
        (9, Kind::Data),
        (10, Kind::Field),
        (11, Kind::Tag),
    ];

    const IN_JSON: Option<&'static str> = Some("wider");

    fn ask<'a>(question: Question, module: Module<'a, Wider>) -> Result<Option<Name<'a>>, Refusal> {
        ask_in_wider!(question, module)
    }

    fn ask_pair<'s, 'o>(
        question: Question,
        pair: Pair<'s, 'o, Wider>,
    ) -> Result<Option<SuppliedName<'s, 'o>>, PairRefusal> {
        ask_in_wider!(question, pair)
    }

    fn rows(of: Subsection, payload: NamePayload<'_, Wider>) -> Result<Rows<'_>, Refusal> {
        match of.kind {
            Kind::Label => by_two_indices!(payload.label_names(), Question::Label),
            Kind::Table => by_index!(payload.table_names(), Question::Table),
            Kind::Memory => by_index!(payload.memory_names(), Question::Memory),
            Kind::Global => by_index!(payload.global_names(), Question::Global),
            Kind::Element => by_index!(payload.element_names(), Question::Element),
            Kind::Data => by_index!(payload.data_names(), Question::Data),
            _ => list_in_both(of, payload),
        }
    }
}

#[cfg(test)]
mod tests {
    use wakemiono::GlobalIndex;

    use super::*;

    #[test]
    fn the_wider_edition_knows_what_the_first_knows() {
        let mut known = First::KNOWN.iter();
        assert!(known.all(|row| Wider::KNOWN.contains(row)));
        for id in 0..=255 {
            let is_known = Wider::kind(id) != Kind::Kept;
            assert_eq!(is_known, id < 12, "{id}");
        }
    }

    #[test]
    fn a_question_of_the_wider_edition_has_no_answer_in_the_first() {
        let bytes = b"\0asm\x01\0\0\0\x00\x0B\x04name\x07\x04\x01\x03\x01g";
        let global = Question::Global(GlobalIndex(3));
        assert_eq!(First::ask(global, Module::new(bytes)), Ok(None));
        let name = Wider::ask(global, Module::wider(bytes)).unwrap().unwrap();
        assert_eq!(name.as_bytes(), b"g");
    }
}
