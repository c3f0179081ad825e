//! Every row of a payload, listed at once.

use comparison::library::{self, Told};

use super::{are_alike, Compared, UNTOUCHED};
use crate::made::LOCALS;
use crate::name_map::{FUNCTIONS, GLOBALS};
use crate::operation::{region, Operation, Who};
use crate::region::counted;

/// Lists for two numbers and a place.
type Places = (Vec<u32>, Vec<u32>, Vec<u64>, Vec<u64>);

/// Lists for two numbers and a hint.
type Hinted = (Vec<u32>, Vec<u32>, Vec<u32>);

fn places(room: usize) -> Places {
    let (numbers, wide) = (vec![UNTOUCHED.into(); room], vec![UNTOUCHED.into(); room]);
    (numbers.clone(), numbers, wide.clone(), wide)
}

fn hinted(room: usize) -> Hinted {
    let numbers = vec![u32::from(UNTOUCHED); room];
    (numbers.clone(), numbers.clone(), numbers)
}

/// Counts one call of each reader in its region, with lists of its own that have room for exactly these rows. They agree
/// if they answer alike, and leave the lists alike.
fn are_listed_alike<const LIBRARY: u8, const READER: u8, Lists: PartialEq>(
    payload: &[u8],
    room: impl Fn(usize) -> Lists,
    library: impl Fn(&[u8], &mut Lists) -> Told,
    reader: impl Fn(&[u8], &mut Lists) -> second_reader::Answer,
) -> bool {
    // Without room it is refused, and told how many rows there are.
    let rows = reader(payload, &mut room(0)).offset as usize;
    let (mut by_library, mut by_reader) = (room(rows), room(rows));
    let told = counted::<LIBRARY, _, _>((payload, &mut by_library), |(payload, lists)| {
        library(payload, lists)
    });
    let read = counted::<READER, _, _>((payload, &mut by_reader), |(payload, lists)| {
        reader(payload, lists)
    });
    are_alike(told, read) && by_library == by_reader
}

/// Puts a call that lists rows with a place to both readers.
macro_rules! listed_places {
    ($operation:expr, $call:ident of $payload:expr $(, $id:expr)?) => {{
        const LIBRARY: u8 = region($operation, Who::Library);
        const READER: u8 = region($operation, Who::SecondReader);
        let alike = are_listed_alike::<LIBRARY, READER, Places>(
            $payload,
            places,
            |p, (one, two, three, four)| library::$call(p $(, $id)?, one, two, three, four),
            |p, (one, two, three, four)| second_reader::$call(p $(, $id)?, one, two, three, four),
        );
        ($operation, alike)
    }};
}

/// The same of rows with a hint.
macro_rules! listed_hints {
    ($operation:expr, $call:ident of $payload:expr) => {{
        const LIBRARY: u8 = region($operation, Who::Library);
        const READER: u8 = region($operation, Who::SecondReader);
        let alike = are_listed_alike::<LIBRARY, READER, Hinted>(
            $payload,
            hinted,
            |p, (one, two, three)| library::$call(p, one, two, three),
            |p, (one, two, three)| second_reader::$call(p, one, two, three),
        );
        ($operation, alike)
    }};
}

/// The names of functions, and of locals where the payload has some.
pub fn of_names(payload: &[u8]) -> Vec<Compared> {
    let mut compared =
        vec![listed_places!(Operation::ListFunctions, names_list of payload, FUNCTIONS)];
    if has(payload, LOCALS) {
        compared.push(listed_places!(Operation::ListLocals, names_list of payload, LOCALS));
    }
    compared
}

/// The names of globals, in the wider edition.
pub fn of_wide_names(payload: &[u8]) -> Compared {
    listed_places!(Operation::WideListGlobals, wide_names_list of payload, GLOBALS)
}

/// The hints, and the same as data of any format.
pub fn of_hints(payload: &[u8]) -> [Compared; 2] {
    [
        listed_places!(Operation::ListMetadata, metadata_list of payload),
        listed_hints!(Operation::ListHints, hints_list of payload),
    ]
}

/// The hints of the older edition.
pub fn of_old_hints(payload: &[u8]) -> Compared {
    listed_hints!(Operation::ListOldHints, old_hints_list of payload)
}

/// Whether an accepted payload has a subsection with an id that is listed.
fn has(payload: &[u8], id: u8) -> bool {
    let (mut one, mut two, mut three, mut four) = places(0);
    let told = library::names_list(payload, id, &mut one, &mut two, &mut three, &mut four);
    told.kind != library::NONE
}
