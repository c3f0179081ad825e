//! A payload, and the names of all that are measured.

use crate::{bytes, code, fixtures, gaps, made, modules, pairs, shared};

/// The name of the section with names.
pub const NAMES: &str = "name";

/// Which section a payload is of, and how it is measured.
#[derive(Clone, Copy, PartialEq, Eq, Debug)]
pub enum Kind {
    /// By the first edition of names.
    Names,
    /// By the first edition, and by the wider one, which finds more in it.
    WideNames,
    Hints,
    /// Of the older edition.
    OldHints,
    /// Two payloads, by the first edition of names.
    Pair,
    /// Two payloads, by the wider edition.
    WidePair,
    /// A whole module, by the walk and as it arrives.
    Module,
    /// A whole module with hints on its code.
    Code,
    /// By the first edition of names, in a shared table in which it is stored already.
    Shared,
    /// All that stands in a shared table in which gaps are closed.
    Gaps,
}

impl Kind {
    /// The name of the custom section that holds such a payload; none of a whole module, nor of several payloads.
    fn section(self) -> Option<&'static str> {
        match self {
            Kind::Names | Kind::WideNames | Kind::Pair | Kind::WidePair | Kind::Shared => {
                Some(NAMES)
            }
            Kind::Hints => Some("metadata.code.branch_hint"),
            Kind::OldHints => Some("branchHints"),
            Kind::Module | Kind::Code | Kind::Gaps => None,
        }
    }
}

/// A payload under a name of one word.
pub struct Payload {
    pub name: String,
    pub kind: Kind,
    /// Of a pair, the separate payload.
    pub bytes: Vec<u8>,
    /// Of a pair, the module's own payload; of others nothing.
    pub own: Vec<u8>,
}

impl Payload {
    /// A payload that is no pair.
    pub fn alone(name: impl Into<String>, kind: Kind, bytes: Vec<u8>) -> Payload {
        Payload {
            name: name.into(),
            kind,
            bytes,
            own: vec![],
        }
    }

    /// The payload in a module without any other section, or the module that it is.
    pub fn module(&self) -> Vec<u8> {
        match self.kind.section() {
            Some(name) => bytes::module(&bytes::custom_section(name, &self.bytes)),
            None => self.bytes.clone(),
        }
    }
}

/// The names of all payloads: the made ones, the pairs of these, whole modules, some with hints on their code, those in
/// shared tables, shared tables with gaps, then those of the fixtures.
pub fn names() -> Vec<String> {
    let pairs = pairs::all().map(|(name, _)| name);
    let made = made::payloads().chain(pairs);
    let made = made.chain(modules::all()).chain(code::all());
    let made = made.chain(shared::all()).chain(gaps::all());
    let of_fixtures = fixtures::payloads().into_iter().map(|payload| payload.name);
    made.map(str::to_string).chain(of_fixtures).collect()
}

/// The payload of a name.
pub fn named(name: &str) -> Option<Payload> {
    let of_fixtures = || {
        let mut payloads = fixtures::payloads().into_iter();
        payloads.find(|payload| payload.name == name)
    };
    made::payload(name)
        .or_else(|| pairs::payload(name))
        .or_else(|| modules::payload(name))
        .or_else(|| code::payload(name))
        .or_else(|| shared::payload(name))
        .or_else(|| gaps::payload(name))
        .or_else(of_fixtures)
}
