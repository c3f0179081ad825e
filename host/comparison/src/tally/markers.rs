//! Markers of function names: made into lists of several lengths, and asked by the quick question, by any lists.

use super::{assert_numbers_left, framed_numbers, untouched, Tally, GUARD, SPARE};
use crate::library::{self, Told, FOUND, REFUSED};
use crate::markers::Markers;

/// The fewest bytes of an entry.
const SHORTEST_ENTRY: usize = 2;

impl Tally {
    /// Makes the markers of a payload, and finds each of these functions by them as in full. They are handed back where
    /// the payload is accepted.
    pub fn own_markers(&mut self, p: &[u8], functions: &[u32]) -> Option<Markers> {
        let markers = self.made_markers(p)?;
        for &function in functions {
            let full = ask!(self, p, function_name, function);
            let quick = self.quick(p, &markers, function);
            assert_eq!(quick, full, "function {function} of {p:02X?}");
        }
        Some(markers)
    }

    /// Makes markers in lists that have room for them, that lack room for one, and that have some to spare.
    fn made_markers(&mut self, p: &[u8]) -> Option<Markers> {
        let most = p.len() / SHORTEST_ENTRY;
        let needed = second_reader::markers(p, &mut vec![0; most], &mut vec![0; most]).length;
        let needed = needed as usize;
        let short = needed.saturating_sub(1);
        for (indices, offsets) in [(0, 0), (short, needed), (needed, short), (needed, needed)] {
            self.markers_into(p, indices, offsets);
        }
        let (told, markers) = self.markers_into(p, needed + SPARE, needed + 1);
        let judged = ask!(self, p, names_judge);
        if judged.kind == REFUSED {
            assert_eq!(told, judged, "markers of {p:02X?}");
        }
        (told.kind == FOUND).then_some(markers)
    }

    /// Makes markers in two lists of these lengths.
    fn markers_into(&mut self, p: &[u8], of_indices: usize, of_offsets: usize) -> (Told, Markers) {
        let lent = self.lent.lend(p);
        let indices = framed_numbers(&mut self.output, of_indices);
        let offsets = framed_numbers(&mut self.also_output, of_offsets);
        let told = library::markers(lent, &mut indices[GUARD..], &mut offsets[GUARD..]);
        let mut read_indices = untouched(of_indices);
        let mut read_offsets = untouched(of_offsets);
        let read = second_reader::markers(p, &mut read_indices, &mut read_offsets);
        let put = format_args!("markers of {p:02X?} into {of_indices} and {of_offsets}");
        assert_eq!(told, Told::from(read), "{put}");
        assert_numbers_left(indices, &read_indices, put);
        assert_numbers_left(offsets, &read_offsets, put);
        assert_eq!(lent, p, "what was lent changed: {put}");
        self.calls += 1;
        read_indices.truncate(told.length as usize);
        read_offsets.truncate(told.length as usize);
        (
            told,
            Markers::new(&read_indices, &read_offsets, told.offset),
        )
    }

    /// The quick question, by any lists and any end.
    pub fn quick(&mut self, p: &[u8], markers: &Markers, function: u32) -> Told {
        let Markers {
            indices,
            offsets,
            end,
        } = markers;
        let lent = self.lent.lend(p);
        let also_lent = self.also_lent.lend_numbers(indices);
        // Nothing is written, so that there is an output to lend.
        let lent_last = self.output.lend_numbers(offsets);
        let told = library::quick_function_name(lent, also_lent, lent_last, *end, function);
        let read = second_reader::quick_function_name(p, indices, offsets, *end, function);
        let put = format_args!("quick, {function} by {markers:?} of {p:02X?}");
        assert_eq!(told, Told::from(read), "{put}");
        assert_eq!(
            (lent, also_lent, lent_last),
            (p, &indices[..], &offsets[..]),
            "what was lent changed"
        );
        self.calls += 1;
        self.quick_met.count(told);
        told
    }

    /// The quick question, by markers with one thing changed.
    pub fn quick_by_damaged(&mut self, p: &[u8], markers: &Markers, functions: &[u32]) {
        for damaged in markers.damaged(p.len()) {
            for &function in functions {
                self.quick(p, &damaged, function);
            }
        }
    }

    /// The quick question found something, got none and was refused, so often at least.
    pub fn assert_quick_met(&self, least: u64) {
        let met = self.quick_met;
        let fewest = met.found.min(met.none).min(met.refused);
        assert!(fewest >= least, "{met:?}");
    }
}
