//! The names in one map of an accepted payload, for the operations that need to know them beforehand.

use comparison::accepted::Accepted;

/// The id of the subsection with the names of functions.
pub const FUNCTIONS: u8 = 1;

/// The id of the subsection with the names of globals.
pub const GLOBALS: u8 = 7;

/// Names as three lists: indices, lengths, and the texts joined.
#[derive(Default)]
pub struct Lists {
    pub indices: Vec<u32>,
    pub lengths: Vec<u32>,
    pub text: Vec<u8>,
}

/// What a name payload says under one id.
pub struct NameMap {
    pub lists: Lists,
    /// There is no other subsection, so that the lists hold all that the payload says.
    pub alone: bool,
}

impl NameMap {
    /// Reads a payload that is accepted by an edition which knows a name map under that id; none without the map.
    pub fn of(payload: &[u8], map_id: u8) -> Option<NameMap> {
        let mut rest = Accepted(payload);
        let mut found = None;
        let mut subsections = 0;
        while let Some((id, contents)) = rest.subsection() {
            subsections += 1;
            if id == map_id {
                found = Some(lists(contents));
            }
        }
        found.map(|lists| NameMap {
            lists,
            alone: subsections == 1,
        })
    }
}

/// The names of an accepted map.
fn lists(mut map: Accepted<'_>) -> Lists {
    let mut lists = Lists::default();
    for _ in 0..map.number() {
        lists.indices.push(map.number());
        let name = map.sized();
        lists.lengths.push(name.len() as u32);
        lists.text.extend(name);
    }
    lists
}

#[cfg(test)]
mod tests {
    use super::*;
    use crate::made;
    use comparison::library::function_names_write;

    #[test]
    fn the_lists_of_a_plain_map_say_all_of_it() {
        let payload = made::payload("go").expect("there is such a payload").bytes;
        let map = NameMap::of(&payload, FUNCTIONS).expect("functions");
        assert!(map.alone);
        let Lists {
            indices,
            lengths,
            text,
        } = map.lists;
        let mut out = vec![0; payload.len()];
        let written = function_names_write(&indices, &lengths, &text, &mut out);
        assert_eq!((written.kind, &out), (1, &payload));
    }

    #[test]
    fn a_map_with_others_beside_it_is_not_alone() {
        let payload = made::payload("locals").expect("there is such a payload");
        let map = NameMap::of(&payload.bytes, FUNCTIONS).expect("functions");
        assert_eq!((map.alone, map.lists.indices.len()), (false, 2_000));
    }

    #[test]
    fn a_map_is_found_by_its_id() {
        let payload = b"\x01\x04\x01\x03\x01f\x07\x04\x01\x05\x01g";
        let indices = |id| NameMap::of(payload, id).expect("a map").lists.indices;
        assert_eq!((indices(FUNCTIONS), indices(GLOBALS)), (vec![3], vec![5]));
    }

    #[test]
    fn no_functions() {
        assert!(NameMap::of(&[], FUNCTIONS).is_none());
        assert!(NameMap::of(&[0, 2, 1, b'm'], FUNCTIONS).is_none());
    }
}
