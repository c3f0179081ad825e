//! Every row of a payload, listed into lists that have room for all, of which one lacks room, and that have some to spare.

use super::{assert_numbers_left, framed_numbers, untouched, Tally, GUARD, IDS, SPARE};
use crate::library::{self, Told, FOUND, REFUSED};

/// The fewest bytes of a row.
const SHORTEST_ROW: usize = 2;

/// How many lists rows with a place take, and how many rows with a hint.
const OF_PLACES: usize = 4;
const OF_HINTS: usize = 3;

/// Puts a call that lists rows with a place to both readers.
macro_rules! list_places {
    ($tally:ident, $p:expr, $call:ident $(, $id:expr)?) => {
        $tally.listed(stringify!($call), $p, |tally, rooms: [usize; OF_PLACES]| {
            tally.places_into(
                stringify!($call $(, $id)?),
                $p,
                rooms,
                |p, firsts, seconds, offsets, lengths| {
                    library::$call(p $(, $id)?, firsts, seconds, offsets, lengths)
                },
                |p, firsts, seconds, offsets, lengths| {
                    second_reader::$call(p $(, $id)?, firsts, seconds, offsets, lengths).into()
                },
            )
        })
    };
}

/// Puts a call that lists rows with a hint to both readers.
macro_rules! list_hints {
    ($tally:ident, $p:expr, $call:ident) => {
        $tally.listed(stringify!($call), $p, |tally, rooms: [usize; OF_HINTS]| {
            tally.hints_into(
                stringify!($call),
                $p,
                rooms,
                library::$call,
                |p, functions, offsets, likely| {
                    second_reader::$call(p, functions, offsets, likely).into()
                },
            )
        })
    };
}

impl Tally {
    /// The names of each subsection, in the first edition.
    pub(super) fn names_listed(&mut self, p: &[u8]) {
        for id in IDS {
            list_places!(self, p, names_list, id);
        }
    }

    /// The same in the wider edition.
    pub(super) fn wide_names_listed(&mut self, p: &[u8]) {
        for id in IDS {
            list_places!(self, p, wide_names_list, id);
        }
    }

    /// The data of a metadata payload, and its hints.
    pub(super) fn metadata_listed(&mut self, p: &[u8]) {
        list_places!(self, p, metadata_list);
        list_hints!(self, p, hints_list);
    }

    /// The hints of the older edition.
    pub(super) fn old_hints_listed(&mut self, p: &[u8]) {
        list_hints!(self, p, old_hints_list);
    }

    /// Each of these calls was answered in each of these ways so often at least.
    pub fn assert_rows_met(&self, calls: &[&'static str], ways: &[Way], least: u64) {
        for call in calls {
            for way in ways {
                let times = self.rows_met.get(&(*call, *way)).copied();
                let times = times.unwrap_or_default();
                assert!(times >= least, "{call}, {way:?}: {times}");
            }
        }
    }

    /// Lists with room to spare, and where there are rows with room for all, with too little in one of the lists, and with
    /// none.
    fn listed<const LISTS: usize>(
        &mut self,
        call: &'static str,
        p: &[u8],
        list: impl Fn(&mut Tally, [usize; LISTS]) -> Told,
    ) {
        let most = p.len() / SHORTEST_ROW + SPARE;
        let told = list(self, [most; LISTS]);
        self.count_rows(call, told);
        let rows = told.length as usize;
        let without_room = list(self, [0; LISTS]);
        if told.kind != FOUND || rows == 0 {
            assert_eq!(without_room, told, "{call} of {p:02X?} without room");
            return;
        }
        self.count_rows(call, without_room);
        list(self, [rows; LISTS]);
        for short in 0..LISTS {
            let mut rooms = [rows; LISTS];
            rooms[short] = rows - 1;
            let told = list(self, rooms);
            self.count_rows(call, told);
        }
    }

    fn count_rows(&mut self, call: &'static str, told: Told) {
        let way = match (told.kind, told.code) {
            (REFUSED, TOO_SHORT) => Way::TooShort,
            (REFUSED, _) => Way::Refused,
            _ if told.length > 0 => Way::Rows,
            _ => Way::NoRows,
        };
        *self.rows_met.entry((call, way)).or_default() += 1;
    }

    /// Lists rows with a place into lists of these lengths.
    fn places_into(
        &mut self,
        call: &str,
        p: &[u8],
        rooms: [usize; OF_PLACES],
        library: impl Fn(&[u8], &mut [u32], &mut [u32], &mut [u64], &mut [u64]) -> Told,
        reader: impl Fn(&[u8], &mut [u32], &mut [u32], &mut [u64], &mut [u64]) -> Told,
    ) -> Told {
        let lent = self.lent.lend(p);
        // Nothing else is lent meanwhile.
        let firsts = framed_numbers(&mut self.output, rooms[0]);
        let seconds = framed_numbers(&mut self.also_output, rooms[1]);
        let offsets = framed_numbers(&mut self.also_lent, rooms[2]);
        let lengths = framed_numbers(&mut self.text, rooms[3]);
        let told = library(
            lent,
            &mut firsts[GUARD..],
            &mut seconds[GUARD..],
            &mut offsets[GUARD..],
            &mut lengths[GUARD..],
        );
        let (mut read_firsts, mut read_seconds) = (untouched(rooms[0]), untouched(rooms[1]));
        let (mut read_offsets, mut read_lengths) = (untouched(rooms[2]), untouched(rooms[3]));
        let read = reader(
            p,
            &mut read_firsts,
            &mut read_seconds,
            &mut read_offsets,
            &mut read_lengths,
        );
        let put = format_args!("{call} of {p:02X?} into {rooms:?}");
        assert_eq!(told, read, "{put}");
        assert_numbers_left(firsts, &read_firsts, put);
        assert_numbers_left(seconds, &read_seconds, put);
        assert_numbers_left(offsets, &read_offsets, put);
        assert_numbers_left(lengths, &read_lengths, put);
        assert_eq!(lent, p, "what was lent changed: {put}");
        self.calls += 1;
        told
    }

    /// Lists rows with a hint into lists of these lengths.
    fn hints_into(
        &mut self,
        call: &str,
        p: &[u8],
        rooms: [usize; OF_HINTS],
        library: impl Fn(&[u8], &mut [u32], &mut [u32], &mut [u32]) -> Told,
        reader: impl Fn(&[u8], &mut [u32], &mut [u32], &mut [u32]) -> Told,
    ) -> Told {
        let lent = self.lent.lend(p);
        let functions = framed_numbers(&mut self.output, rooms[0]);
        let offsets = framed_numbers(&mut self.also_output, rooms[1]);
        let likely = framed_numbers(&mut self.also_lent, rooms[2]);
        let told = library(
            lent,
            &mut functions[GUARD..],
            &mut offsets[GUARD..],
            &mut likely[GUARD..],
        );
        let mut read_functions = untouched(rooms[0]);
        let (mut read_offsets, mut read_likely) = (untouched(rooms[1]), untouched(rooms[2]));
        let read = reader(p, &mut read_functions, &mut read_offsets, &mut read_likely);
        let put = format_args!("{call} of {p:02X?} into {rooms:?}");
        assert_eq!(told, read, "{put}");
        assert_numbers_left(functions, &read_functions, put);
        assert_numbers_left(offsets, &read_offsets, put);
        assert_numbers_left(likely, &read_likely, put);
        assert_eq!(lent, p, "what was lent changed: {put}");
        self.calls += 1;
        told
    }
}

/// The refusal number of a list that is too short.
const TOO_SHORT: u32 = 13;

/// The names of the calls that list.
pub const LISTING: [&str; 5] = [
    "names_list",
    "wide_names_list",
    "metadata_list",
    "hints_list",
    "old_hints_list",
];

/// How a call that lists was answered.
#[derive(Clone, Copy, Debug, PartialEq, Eq, PartialOrd, Ord)]
pub enum Way {
    /// With rows.
    Rows,
    /// With none, or because there is no such subsection.
    NoRows,
    /// With a refusal of the payload.
    Refused,
    /// With the refusal of a list.
    TooShort,
}
