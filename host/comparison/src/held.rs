//! Payloads as what they hold, so that one thing of them can be changed before they are spelled as bytes.

use std::collections::BTreeMap;

use crate::accepted::Accepted;
use crate::spelling::{number, sized, unpadded, with_one_padded, Padding};
use crate::tally::KEYS;

/// Rising numbers, each with a sized part: a name map, or the items of a function.
pub type Entries = BTreeMap<u32, Vec<u8>>;

/// Rising numbers, each with such a list: an indirect name map, or a metadata payload.
pub type Groups = BTreeMap<u32, Entries>;

/// What a subsection of a name payload holds.
#[derive(Clone)]
pub enum Contents {
    /// The module's name.
    Name(Vec<u8>),
    /// A name map.
    Map(Entries),
    /// An indirect name map.
    Indirect(Groups),
    /// Bytes that are not looked into.
    Kept(Vec<u8>),
}

/// Which subsections hold maps. That of id 0 holds the module's name, and all others are kept.
pub struct Edition {
    /// The ids of subsections that hold a name map.
    pub maps: &'static [u8],
    /// The ids of subsections that hold an indirect name map.
    pub indirect_maps: &'static [u8],
}

/// The id of the subsection that holds the module's name.
const MODULE: u8 = 0;

/// The first edition.
pub static FIRST: Edition = Edition {
    maps: &[1, 4, 11],
    indirect_maps: &[2, 10],
};

/// The wider edition.
pub static WIDER: Edition = Edition {
    maps: &[1, 4, 5, 6, 7, 8, 9, 11],
    indirect_maps: &[2, 3, 10],
};

/// What a name payload holds.
#[derive(Clone)]
pub struct Names {
    /// By which it is made.
    pub edition: &'static Edition,
    /// Its subsections, by their ids.
    pub subsections: BTreeMap<u8, Contents>,
}

/// What a payload holds.
pub trait Held: Sized {
    /// The payload.
    fn spelled(&self, padding: Padding<'_>) -> Vec<u8>;

    /// The same without lists that are empty, or left empty by that.
    fn without_empty_lists(self) -> Self;

    /// The same with one list more, which is empty or has an empty one in it, at each place that there is for it.
    fn with_an_empty_list(&self) -> Vec<Self>;

    /// The canonical payload.
    fn canonical(self) -> Vec<u8> {
        self.without_empty_lists().spelled(&mut unpadded)
    }

    /// Every payload in which one number is padded, and every other is in its fewest bytes.
    fn with_one_padded(&self) -> Vec<Vec<u8>> {
        with_one_padded(|padding| self.spelled(padding))
    }
}

/// A metadata payload, and the contents of an indirect map.
impl Held for Groups {
    fn spelled(&self, padding: Padding<'_>) -> Vec<u8> {
        let mut bytes = number(self.len() as u32, padding);
        for (key, entries) in self {
            bytes.extend(number(*key, padding));
            bytes.extend(spelled_entries(entries, padding));
        }
        bytes
    }

    fn without_empty_lists(mut self) -> Groups {
        self.retain(|_, entries| !entries.is_empty());
        self
    }

    fn with_an_empty_list(&self) -> Vec<Groups> {
        let free = KEYS.into_iter().filter(|key| !self.contains_key(key));
        free.map(|key| with(self, key, Entries::new())).collect()
    }
}

fn spelled_entries(entries: &Entries, padding: Padding<'_>) -> Vec<u8> {
    let mut bytes = number(entries.len() as u32, padding);
    for (key, part) in entries {
        bytes.extend(number(*key, padding));
        bytes.extend(sized(part, padding));
    }
    bytes
}

/// What a payload of older hints holds: entries in any order, each a function and its hints, of a kind and an offset.
#[derive(Clone)]
pub struct OldHints(pub Vec<(u32, Vec<(u32, u32)>)>);

/// What stands between the function of an entry and its hints.
const ZERO: u8 = 0;

impl OldHints {
    /// The same in one entry for each function, both in the order of the numbers, with the first hint of each place.
    pub fn in_order(&self) -> OldHints {
        let mut functions: BTreeMap<u32, BTreeMap<u32, u32>> = BTreeMap::new();
        for (function, hints) in &self.0 {
            for (kind, offset) in hints {
                let held = functions.entry(*function).or_default();
                held.entry(*offset).or_insert(*kind);
            }
        }
        let hints = |held: BTreeMap<u32, u32>| held.into_iter().map(|(at, kind)| (kind, at));
        let entries = functions.into_iter();
        OldHints(
            entries
                .map(|(function, held)| (function, hints(held).collect()))
                .collect(),
        )
    }

    /// The same hints of something in order, which differ in one place: two entries or two hints exchanged, a hint said
    /// again of the same or of the other kind, an entry in two parts.
    pub fn out_of_order(&self) -> Vec<OldHints> {
        let mut all: Vec<OldHints> = (1..self.0.len())
            .map(|at| self.changed(|entries| entries.swap(at - 1, at)))
            .collect();
        for (entry, (function, hints)) in self.0.iter().enumerate() {
            for at in 1..hints.len() {
                all.push(self.changed(|entries| entries[entry].1.swap(at - 1, at)));
                all.push(self.changed(|entries| {
                    let rest = entries[entry].1.split_off(at);
                    entries.insert(entry + 1, (*function, rest));
                }));
            }
            for (at, (kind, offset)) in hints.iter().enumerate() {
                for again in [*kind, 1 - *kind] {
                    all.push(
                        self.changed(|entries| entries[entry].1.insert(at + 1, (again, *offset))),
                    );
                    all.push(
                        self.changed(|entries| entries.push((*function, vec![(again, *offset)]))),
                    );
                }
            }
        }
        all
    }

    fn changed(&self, change: impl FnOnce(&mut Vec<(u32, Vec<(u32, u32)>)>)) -> OldHints {
        let mut entries = self.0.clone();
        change(&mut entries);
        OldHints(entries)
    }
}

impl Held for OldHints {
    fn spelled(&self, padding: Padding<'_>) -> Vec<u8> {
        let mut bytes = number(self.0.len() as u32, padding);
        for (function, hints) in &self.0 {
            bytes.extend(number(*function, padding));
            bytes.push(ZERO);
            bytes.extend(number(hints.len() as u32, padding));
            for (kind, offset) in hints {
                bytes.extend(number(*kind, padding));
                bytes.extend(number(*offset, padding));
            }
        }
        bytes
    }

    fn without_empty_lists(mut self) -> OldHints {
        self.0.retain(|(_, hints)| !hints.is_empty());
        self
    }

    fn with_an_empty_list(&self) -> Vec<OldHints> {
        let places = 0..=self.0.len();
        let with =
            |at: usize| KEYS.map(|key| self.changed(|entries| entries.insert(at, (key, vec![]))));
        places.flat_map(with).collect()
    }

    fn canonical(self) -> Vec<u8> {
        self.in_order().spelled(&mut unpadded)
    }
}

impl Names {
    /// What an accepted payload holds.
    pub fn of(payload: &[u8], edition: &'static Edition) -> Names {
        let mut rest = Accepted(payload);
        let subsections = std::iter::from_fn(|| {
            let (id, mut contents) = rest.subsection()?;
            let contents = match id {
                MODULE => Contents::Name(contents.sized().to_vec()),
                _ if edition.maps.contains(&id) => Contents::Map(entries_of(&mut contents)),
                _ if edition.indirect_maps.contains(&id) => {
                    Contents::Indirect(groups_of(&mut contents))
                }
                _ => Contents::Kept(contents.0.to_vec()),
            };
            Some((id, contents))
        });
        Names {
            edition,
            subsections: subsections.collect(),
        }
    }

    /// The same with other contents in a subsection.
    fn with(&self, id: u8, contents: Contents) -> Names {
        Names {
            subsections: with(&self.subsections, id, contents),
            ..*self
        }
    }
}

impl Held for Names {
    fn spelled(&self, padding: Padding<'_>) -> Vec<u8> {
        let mut bytes = vec![];
        for (id, contents) in &self.subsections {
            let contents = match contents {
                Contents::Name(text) => sized(text, padding),
                Contents::Map(entries) => spelled_entries(entries, padding),
                Contents::Indirect(groups) => groups.spelled(padding),
                Contents::Kept(contents) => contents.clone(),
            };
            bytes.push(*id);
            bytes.extend(sized(&contents, padding));
        }
        bytes
    }

    fn without_empty_lists(self) -> Names {
        let left = self.subsections.into_iter().filter_map(|(id, contents)| {
            let left = match contents {
                Contents::Map(entries) if entries.is_empty() => None,
                Contents::Indirect(groups) => {
                    let left = groups.without_empty_lists();
                    (!left.is_empty()).then_some(Contents::Indirect(left))
                }
                other => Some(other),
            };
            Some((id, left?))
        });
        Names {
            subsections: left.collect(),
            ..self
        }
    }

    fn with_an_empty_list(&self) -> Vec<Names> {
        let mut all = vec![];
        for id in self.edition.maps {
            if !self.subsections.contains_key(id) {
                all.push(self.with(*id, Contents::Map(Entries::new())));
            }
        }
        for id in self.edition.indirect_maps {
            let groups = match self.subsections.get(id) {
                Some(Contents::Indirect(groups)) => groups.with_an_empty_list(),
                _ => [vec![Groups::new()], Groups::new().with_an_empty_list()].concat(),
            };
            let contents = groups.into_iter().map(Contents::Indirect);
            all.extend(contents.map(|contents| self.with(*id, contents)));
        }
        all
    }
}

/// The entries of an accepted list.
fn entries_of(list: &mut Accepted<'_>) -> Entries {
    let count = list.number();
    let entry = |_| (list.number(), list.sized().to_vec());
    (0..count).map(entry).collect()
}

/// The groups of an accepted list of them.
fn groups_of(list: &mut Accepted<'_>) -> Groups {
    let count = list.number();
    let group = |_| (list.number(), entries_of(list));
    (0..count).map(group).collect()
}

fn with<Key: Clone + Ord, Value: Clone>(
    held: &BTreeMap<Key, Value>,
    key: Key,
    value: Value,
) -> BTreeMap<Key, Value> {
    let mut more = held.clone();
    more.insert(key, value);
    more
}

#[cfg(test)]
mod tests {
    use super::*;

    /// Function 0 called `a`.
    fn one_function(edition: &'static Edition) -> Names {
        let entries = Entries::from([(0, b"a".to_vec())]);
        let subsections = BTreeMap::from([(1, Contents::Map(entries))]);
        Names {
            edition,
            subsections,
        }
    }

    #[test]
    fn the_canonical_payload_of_one_function() {
        let empty_group = Groups::from([(3, Entries::new())]);
        let held = one_function(&FIRST)
            .with(2, Contents::Indirect(empty_group))
            .with(4, Contents::Map(Entries::new()));
        assert_eq!(held.canonical(), b"\x01\x04\x01\x00\x01a");
        assert_eq!(Groups::from([(3, Entries::new())]).canonical(), [0]);
    }

    #[test]
    fn the_canonical_payload_of_older_hints() {
        let free = OldHints(vec![
            (5, vec![(1, 9), (0, 4)]),
            (2, vec![]),
            (5, vec![(0, 9), (1, 3)]),
            (1, vec![(1, 128)]),
        ]);
        let canonical = b"\x02\x01\x00\x01\x01\x80\x01\x05\x00\x03\x01\x03\x00\x04\x01\x09";
        assert_eq!(free.clone().canonical(), canonical);
        let others = free.in_order().out_of_order();
        // One exchange of entries, two of hints, two entries cut, and each of four hints said again in four ways.
        assert_eq!(others.len(), 1 + 2 + 2 + 4 * 4);
        for other in others {
            assert_ne!(other.spelled(&mut unpadded), canonical);
            assert_eq!(other.canonical(), canonical);
        }
    }

    #[test]
    fn what_a_payload_holds_is_read_from_it() {
        let payload = b"\x00\x02\x01m\x01\x04\x01\x00\x01a\x02\x06\x01\x03\x01\x00\x01x\x0C\x02yz";
        assert_eq!(Names::of(payload, &FIRST).canonical(), payload);
        let [padded, with_empty] = [
            &b"\x01\x85\x00\x01\x00\x81\x00a"[..],
            b"\x01\x04\x01\x00\x01a\x02\x03\x01\x03\x00",
        ];
        assert_eq!(Names::of(padded, &FIRST).canonical(), payload[4..10]);
        let held = Names::of(with_empty, &FIRST);
        assert_eq!(held.spelled(&mut unpadded), with_empty);
        assert_eq!(held.canonical(), payload[4..10]);
    }

    /// The size, the count, the index and the length, each in two to five bytes.
    #[test]
    fn each_number_is_padded_alone() {
        let padded = one_function(&FIRST).with_one_padded();
        assert_eq!(padded.len(), 4 * 4);
        for payload in [
            &b"\x01\x84\x00\x01\x00\x01a"[..],
            b"\x01\x05\x81\x00\x00\x01a",
            b"\x01\x06\x01\x80\x80\x00\x01a",
            b"\x01\x08\x01\x00\x81\x80\x80\x80\x00a",
        ] {
            let times = padded.iter().filter(|padded| *padded == payload).count();
            assert_eq!(times, 1, "{payload:02X?}");
        }
    }

    /// The other maps, and the indirect ones: without groups, or with one that is empty.
    #[test]
    fn each_empty_list_is_added_alone() {
        for (edition, other_maps, indirect_maps) in [(&FIRST, 2, 2), (&WIDER, 7, 3)] {
            let more = one_function(edition).with_an_empty_list();
            let groups = indirect_maps * (1 + KEYS.len());
            assert_eq!(more.len(), other_maps + groups);
            assert!(more.iter().all(|held| held.subsections.len() == 2));
            let canonical = one_function(edition).canonical();
            assert!(more.into_iter().all(|held| held.canonical() == canonical));
        }
    }
}
