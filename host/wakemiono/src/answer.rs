//! What the answer of a C call means.

use std::fmt;

use crate::ffi::pairs::{PairAnswer, NOBODY, OWN, SEPARATE};
use crate::ffi::stream::StreamAnswer;
use crate::ffi::{
    Answer, WhyAnswer, FOUND, LIKELY, NONE, NO_ENTRY, NO_GROUP, NO_SUBSECTION, REFUSED, UNLIKELY,
};
use crate::{
    Hint, Hold, Marked, PairRefusal, Place, Reason, Refusal, Section, SharedTable, Supplied,
    SuppliedBytes, Walked, Whose, Why,
};

impl Answer {
    /// The part of what was lent that was found, or none.
    pub(crate) fn part(self, lent: &[u8]) -> Result<Option<&[u8]>, Refusal> {
        let found = self.is_found()?;
        Ok(found.then(|| self.place(lent)))
    }

    /// Something found at a place.
    pub(crate) const fn found(offset: u64, length: u64) -> Answer {
        Answer {
            kind: FOUND,
            code: 0,
            offset,
            length,
        }
    }

    /// Where something lies that was found.
    pub(crate) fn place(self, lent: &[u8]) -> &[u8] {
        let place = || {
            let from = usize::try_from(self.offset).ok()?;
            let length = usize::try_from(self.length).ok()?;
            lent.get(from..from.checked_add(length)?)
        };
        place().unwrap_or_else(|| self.misfit())
    }

    /// The same of a call on lists, whose refusals count other things than bytes.
    pub(crate) fn part_by_lists(self, lent: &[u8]) -> Result<Option<&[u8]>, Refusal> {
        self.part(lent).map_err(in_lists)
    }

    /// The same of a call that was lent nothing that it could refuse.
    pub(crate) fn part_unrefused(self, lent: &[u8]) -> Option<&[u8]> {
        self.part(lent).unwrap_or_else(|_| self.misfit())
    }

    /// The section of a module that was found, or none.
    pub(crate) fn section(self, module: &[u8]) -> Result<Option<Section<'_>>, Refusal> {
        if !self.is_found()? {
            return Ok(None);
        }
        let is_told = |section: &Section<'_>| {
            let length = section.contents().len() as u64;
            (u32::from(section.id()), length) == (self.code, self.length)
        };
        let section = Section::at(module, self.offset).filter(is_told);
        Ok(Some(section.unwrap_or_else(|| self.misfit())))
    }

    /// A length or a count, where there is always one or a refusal.
    pub(crate) fn length(self) -> Result<u64, Refusal> {
        if self.is_found()? {
            Ok(self.length)
        } else {
            self.misfit()
        }
    }

    /// How many bytes were written into an output of a length.
    pub(crate) fn written(self, out_len: usize) -> Result<usize, Refusal> {
        let written = usize::try_from(self.length()?);
        match written {
            Ok(written) if written <= out_len => Ok(written),
            _ => self.misfit(),
        }
    }

    /// The same of a call on lists, whose refusals count other things than bytes.
    pub(crate) fn written_from_lists(self, out_len: usize) -> Result<usize, Refusal> {
        self.written(out_len).map_err(in_lists)
    }

    /// How many rows there are to list, of a call that was lent no room for any.
    pub(crate) fn row_count(self) -> Result<usize, Refusal> {
        match self.is_found() {
            Ok(false) => Ok(0),
            Ok(true) if self.length == 0 => Ok(0),
            Ok(true) => self.misfit(),
            Err(refusal) if refusal.reason() == Reason::OutputTooShort => {
                usize::try_from(refusal.offset()).map_err(|_| refusal)
            }
            Err(refusal) => Err(refusal),
        }
    }

    /// Whether all rows were listed, of which there are so many.
    pub(crate) fn filled(self, count: usize) -> Result<(), Refusal> {
        self.taken(count)
    }

    /// How many markers were written into lists that have room for so many, and where the subsection
    /// ends in a payload of a length.
    pub(crate) fn marked(self, room: usize, payload_len: usize) -> Result<Marked, Refusal> {
        let count = self.written(room)?;
        match usize::try_from(self.offset) {
            Ok(end) if end <= payload_len => Ok(Marked {
                count,
                end: self.offset,
            }),
            _ => self.misfit(),
        }
    }

    /// Whether a part of a length was taken, which it is as a whole.
    pub(crate) fn taken(self, part_len: usize) -> Result<(), Refusal> {
        match self.written(part_len)? {
            taken if taken == part_len => Ok(()),
            _ => self.misfit(),
        }
    }

    /// The hold that a customer was given.
    pub(crate) fn hold(self) -> Result<Hold, Refusal> {
        match u32::try_from(self.length()?) {
            Ok(hold) if hold < SharedTable::HOLDS => Ok(Hold(hold)),
            _ => self.misfit(),
        }
    }

    /// How many bytes of a name were copied into an output of a length, or none.
    pub(crate) fn copied(self, out_len: usize) -> Result<Option<usize>, Refusal> {
        match self.is_found()? {
            true => self.written(out_len).map(Some),
            false => Ok(None),
        }
    }

    /// Whether a call was granted of which nothing more is said.
    pub(crate) fn granted(self) -> Result<(), Refusal> {
        self.taken(0)
    }

    /// The hint, or none.
    pub(crate) fn hint(self) -> Result<Option<Hint>, Refusal> {
        match self.kind {
            NONE => Ok(None),
            UNLIKELY => Ok(Some(Hint::Unlikely)),
            LIKELY => Ok(Some(Hint::Likely)),
            REFUSED => Err(self.refusal()),
            _ => self.misfit(),
        }
    }

    fn is_found(self) -> Result<bool, Refusal> {
        match self.kind {
            NONE => Ok(false),
            FOUND => Ok(true),
            REFUSED => Err(self.refusal()),
            _ => self.misfit(),
        }
    }

    fn refusal(self) -> Refusal {
        refusal(self, self.code, self.offset)
    }

    fn misfit(self) -> ! {
        misfit(self)
    }
}

impl WhyAnswer {
    /// Why there is no name, or where it stands.
    pub(crate) fn why<Index: From<u32>>(self) -> Result<Why<Index>, Refusal> {
        match self.kind {
            FOUND => Ok(Why::Named {
                subsection: u8::try_from(self.code).unwrap_or_else(|_| misfit(self)),
                position: self.position,
            }),
            REFUSED => Err(refusal(self, self.code, self.offset)),
            NO_SUBSECTION => Ok(Why::NoSubsection),
            NO_GROUP => Ok(Why::NoGroup),
            NO_ENTRY => Ok(Why::NoEntry {
                below: is_yes(self.has_below).then(|| self.below.into()),
                above: is_yes(self.has_above).then(|| self.above.into()),
            }),
            _ => misfit(self),
        }
    }
}

impl PairAnswer {
    /// The part of one of two payloads that was found, or none.
    pub(crate) fn part<'s, 'o>(
        self,
        separate: &'s [u8],
        own: &'o [u8],
    ) -> Result<Option<SuppliedBytes<'s, 'o>>, PairRefusal> {
        let answer = self.alone();
        let found = answer.is_found().map_err(|refusal| self.refused(refusal))?;
        match (found, self.whose()) {
            (false, None) => Ok(None),
            (true, Some(Whose::Separate)) => Ok(Some(Supplied::Separate(answer.place(separate)))),
            (true, Some(Whose::Own)) => Ok(Some(Supplied::Own(answer.place(own)))),
            _ => misfit(self),
        }
    }

    /// How many bytes of a joined payload were written into an output of a length.
    pub(crate) fn written(self, out_len: usize) -> Result<usize, PairRefusal> {
        let written = self.alone().written(out_len);
        let written = written.map_err(|refusal| self.refused(refusal))?;
        match self.whose() {
            None => Ok(written),
            Some(_) => misfit(self),
        }
    }

    /// The same without whose it is.
    fn alone(self) -> Answer {
        Answer {
            kind: self.kind,
            code: self.code,
            offset: self.offset,
            length: self.length,
        }
    }

    fn whose(self) -> Option<Whose> {
        match self.whose {
            NOBODY => None,
            SEPARATE => Some(Whose::Separate),
            OWN => Some(Whose::Own),
            _ => misfit(self),
        }
    }

    /// No payload that is lent is refused for what only a joined one can be, nor the other way round.
    fn refused(self, refusal: Refusal) -> PairRefusal {
        let only_of_joined = matches!(
            refusal.reason(),
            Reason::SubsectionTooLong | Reason::OutputTooShort
        );
        match self.whose() {
            Some(whose) if !only_of_joined => PairRefusal::of(whose, refusal),
            None if only_of_joined => PairRefusal::of_joined(refusal),
            _ => misfit(self),
        }
    }
}

impl StreamAnswer {
    /// What was found in a module that arrived, of so many bytes.
    pub(crate) fn walked(self, total: u64) -> Result<Walked, Refusal> {
        let place = |kind, offset, length| self.place(kind, offset, length, total);
        match self.kind {
            FOUND => Ok(Walked {
                section_count: self.length,
                name: place(self.name_kind, self.name_offset, self.name_length),
                hints: place(self.hints_kind, self.hints_offset, self.hints_length),
                old_hints: place(
                    self.old_hints_kind,
                    self.old_hints_offset,
                    self.old_hints_length,
                ),
            }),
            REFUSED => Err(refusal(self, self.code, self.offset)),
            _ => misfit(self),
        }
    }

    /// Where a payload lies, or none.
    fn place(self, kind: u64, offset: u64, length: u64, total: u64) -> Option<Place> {
        let end = offset.checked_add(length);
        match (u32::try_from(kind), end) {
            (Ok(NONE), _) => None,
            (Ok(FOUND), Some(end)) if end <= total => Some(Place { offset, length }),
            _ => misfit(self),
        }
    }
}

/// A refusal whose offset counts in lists.
fn in_lists(refusal: Refusal) -> Refusal {
    Refusal::in_lists(refusal.reason(), refusal.offset())
}

/// The refusal of an answer that is one, by its number and its offset.
fn refusal(answer: impl fmt::Debug, number: u32, offset: u64) -> Refusal {
    let reason = Reason::from_number(number).unwrap_or_else(|| misfit(answer));
    Refusal::in_bytes(reason, offset)
}

const NO: u32 = 0;
const YES: u32 = 1;

/// What the answer to a yes or no says.
pub(crate) fn is_yes(answer: u32) -> bool {
    match answer {
        NO => false,
        YES => true,
        _ => misfit(answer),
    }
}

/// No call of the archive that belongs to this crate answers so.
fn misfit(answer: impl fmt::Debug) -> ! {
    panic!("libwakemiono.a gave {answer:?}, against its header: is it of another version?")
}

#[cfg(test)]
mod tests {
    use super::*;
    use crate::FunctionIndex;

    fn answer(kind: u32, code: u32, offset: u64, length: u64) -> Answer {
        Answer {
            kind,
            code,
            offset,
            length,
        }
    }

    #[test]
    fn a_part_is_the_bytes_that_were_lent() {
        let lent = [1, 2, 3, 4];
        assert_eq!(answer(FOUND, 0, 1, 2).part(&lent), Ok(Some(&lent[1..3])));
        assert_eq!(answer(FOUND, 0, 4, 0).part(&lent), Ok(Some(&lent[4..])));
        assert_eq!(answer(NONE, 0, 0, 0).part(&lent), Ok(None));
    }

    #[test]
    #[should_panic(expected = "is it of another version?")]
    fn a_part_beyond_what_was_lent_is_a_misfit() {
        let _ = answer(FOUND, 0, 3, 2).part(&[1, 2, 3, 4]);
    }

    #[test]
    #[should_panic(expected = "is it of another version?")]
    fn a_part_whose_end_has_no_number_is_a_misfit() {
        let _ = answer(FOUND, 0, u64::MAX, 2).part(&[1, 2, 3, 4]);
    }

    #[test]
    #[should_panic(expected = "is it of another version?")]
    fn a_hint_is_no_place() {
        let _ = answer(LIKELY, 0, 0, 0).part(&[]);
    }

    #[test]
    #[should_panic(expected = "is it of another version?")]
    fn a_place_is_no_hint() {
        let _ = answer(FOUND, 0, 0, 0).hint();
    }

    #[test]
    fn a_section_is_the_bytes_that_were_lent() {
        let lent = [9, 9, 3, 0x82, 0x00, 5, 6, 9];
        let section = answer(FOUND, 3, 2, 2).section(&lent).unwrap().unwrap();
        assert_eq!((section.id(), section.offset()), (3, 2));
        assert_eq!(
            (section.contents_offset(), section.contents()),
            (5, &lent[5..7])
        );
        assert_eq!(answer(NONE, 0, 0, 0).section(&lent), Ok(None));
    }

    /// Of a section with the id 3 and one byte of contents: another id, which may be no byte, another length, and
    /// another place.
    #[test]
    fn a_section_is_told_as_it_stands_there() {
        for misfit in [
            answer(FOUND, 4, 0, 1),
            answer(FOUND, 259, 0, 1),
            answer(FOUND, 3, 0, 2),
            answer(FOUND, 3, 3, 1),
            answer(FOUND, 3, u64::MAX, 1),
        ] {
            let told = std::panic::catch_unwind(|| misfit.section(&[3, 1, 7]).is_ok());
            assert!(told.is_err(), "{misfit:?}");
        }
    }

    #[test]
    #[should_panic(expected = "is it of another version?")]
    fn a_count_is_never_none() {
        let _ = answer(NONE, 0, 0, 0).length();
    }

    #[test]
    #[should_panic(expected = "is it of another version?")]
    fn no_more_is_written_than_there_is_room() {
        let _ = answer(FOUND, 0, 0, 5).written(4);
    }

    #[test]
    #[should_panic(expected = "is it of another version?")]
    fn what_cannot_be_refused_is_not() {
        let _ = answer(REFUSED, 22, 0, 0).part_unrefused(&[1, 2, 3, 4]);
    }

    #[test]
    fn rows_are_counted_by_a_refusal() {
        assert_eq!(answer(REFUSED, 13, 7, 0).row_count(), Ok(7));
        assert_eq!(answer(FOUND, 0, 0, 0).row_count(), Ok(0));
        assert_eq!(answer(NONE, 0, 0, 0).row_count(), Ok(0));
        let refusal = answer(REFUSED, 11, 5, 0).row_count().unwrap_err();
        assert_eq!((refusal.number(), refusal.offset()), (11, 5));
    }

    #[test]
    #[should_panic(expected = "is it of another version?")]
    fn no_rows_are_listed_without_room() {
        let _ = answer(FOUND, 0, 0, 1).row_count();
    }

    #[test]
    #[should_panic(expected = "is it of another version?")]
    fn as_many_rows_are_listed_as_were_counted() {
        let _ = answer(FOUND, 0, 0, 2).filled(3);
    }

    #[test]
    fn markers_are_a_count_and_an_end() {
        let end_of_payload = answer(FOUND, 0, 9, 2).marked(2, 9);
        assert_eq!(end_of_payload, Ok(Marked { count: 2, end: 9 }));
        let refusal = answer(REFUSED, 13, 2, 0).marked(1, 9).unwrap_err();
        assert_eq!((refusal.number(), refusal.offset()), (13, 2));
    }

    #[test]
    #[should_panic(expected = "is it of another version?")]
    fn no_more_markers_are_written_than_there_is_room() {
        let _ = answer(FOUND, 0, 9, 3).marked(2, 9);
    }

    #[test]
    #[should_panic(expected = "is it of another version?")]
    fn markers_end_inside_the_payload() {
        let _ = answer(FOUND, 0, 10, 2).marked(2, 9);
    }

    #[test]
    fn yes_is_1_and_no_is_0() {
        assert!(is_yes(1));
        assert!(!is_yes(0));
    }

    #[test]
    #[should_panic(expected = "gave 2, against its header: is it of another version?")]
    fn nothing_else_is_a_yes_or_no() {
        let _ = is_yes(2);
    }

    #[test]
    #[should_panic(expected = "is it of another version?")]
    fn no_call_refuses_with_the_number_16() {
        let _ = answer(REFUSED, 16, 0, 0).length();
    }

    /// A why of a kind with a code, in which nothing else is said.
    fn why(kind: u32, code: u32) -> WhyAnswer {
        WhyAnswer {
            kind,
            code,
            offset: 0,
            position: 0,
            has_below: 0,
            below: 0,
            has_above: 0,
            above: 0,
        }
    }

    fn of_function(answer: WhyAnswer) -> Result<Why<FunctionIndex>, Refusal> {
        answer.why()
    }

    #[test]
    fn each_why_is_what_the_header_says() {
        let third = WhyAnswer {
            position: 2,
            ..why(FOUND, 1)
        };
        let named = Why::Named {
            subsection: 1,
            position: 2,
        };
        assert_eq!(of_function(third), Ok(named));
        assert_eq!(of_function(why(NO_SUBSECTION, 0)), Ok(Why::NoSubsection));
        assert_eq!(of_function(why(NO_GROUP, 0)), Ok(Why::NoGroup));
        let at_5 = WhyAnswer {
            offset: 5,
            ..why(REFUSED, 11)
        };
        let refusal = of_function(at_5).unwrap_err();
        assert_eq!((refusal.number(), refusal.offset()), (11, 5));
    }

    #[test]
    fn an_index_is_near_only_where_it_is_said_to_be() {
        let behind_0 = WhyAnswer {
            has_below: 1,
            ..why(NO_ENTRY, 0)
        };
        let before_9 = WhyAnswer {
            has_above: 1,
            above: 9,
            ..why(NO_ENTRY, 0)
        };
        let nearest = |below, above| Ok(Why::NoEntry { below, above });
        let (zero, nine) = (Some(FunctionIndex(0)), Some(FunctionIndex(9)));
        assert_eq!(of_function(behind_0), nearest(zero, None));
        assert_eq!(of_function(before_9), nearest(None, nine));
        assert_eq!(of_function(why(NO_ENTRY, 0)), nearest(None, None));
    }

    #[test]
    #[should_panic(expected = "is it of another version?")]
    fn a_why_is_never_none() {
        let _ = of_function(why(NONE, 0));
    }

    #[test]
    #[should_panic(expected = "is it of another version?")]
    fn the_id_of_a_subsection_is_a_byte() {
        let _ = of_function(why(FOUND, 256));
    }

    #[test]
    #[should_panic(expected = "is it of another version?")]
    fn no_why_is_refused_with_the_number_16() {
        let _ = of_function(why(REFUSED, 16));
    }

    const LENT: [u8; 4] = [1, 2, 3, 4];

    fn of_pair(kind: u32, code: u32, offset: u64, length: u64, whose: u64) -> PairAnswer {
        PairAnswer {
            kind,
            code,
            offset,
            length,
            whose,
        }
    }

    #[test]
    fn a_part_is_of_the_payload_that_is_said() {
        let part = |answer: PairAnswer| answer.part(&LENT[..2], &LENT).unwrap();
        let of_separate = part(of_pair(FOUND, 0, 1, 1, SEPARATE));
        assert_eq!(of_separate, Some(Supplied::Separate(&LENT[1..2])));
        let of_own = part(of_pair(FOUND, 0, 1, 3, OWN));
        assert_eq!(of_own, Some(Supplied::Own(&LENT[1..])));
        assert_eq!(part(of_pair(NONE, 0, 0, 0, NOBODY)), None);
    }

    #[test]
    fn a_refusal_is_of_the_payload_that_is_said() {
        for (whose, said) in [(SEPARATE, Whose::Separate), (OWN, Whose::Own)] {
            let refused = of_pair(REFUSED, 11, 5, 0, whose);
            let refusal = PairRefusal::of(said, answer(REFUSED, 11, 5, 0).refusal());
            assert_eq!(refused.part(&LENT, &LENT), Err(refusal));
            assert_eq!(refused.written(9), Err(refusal));
        }
        for code in [13, 15] {
            let refusal = of_pair(REFUSED, code, 5, 0, NOBODY).written(4).unwrap_err();
            assert_eq!((refusal.whose(), refusal.refusal().number()), (None, code));
        }
        assert_eq!(of_pair(FOUND, 0, 0, 4, NOBODY).written(4), Ok(4));
    }

    #[test]
    #[should_panic(expected = "is it of another version?")]
    fn a_part_beyond_its_own_payload_is_a_misfit() {
        let _ = of_pair(FOUND, 0, 1, 3, SEPARATE).part(&LENT[..2], &LENT);
    }

    #[test]
    #[should_panic(expected = "is it of another version?")]
    fn what_is_found_is_somebodys() {
        let _ = of_pair(FOUND, 0, 1, 1, NOBODY).part(&LENT, &LENT);
    }

    #[test]
    #[should_panic(expected = "is it of another version?")]
    fn no_name_is_nobodys() {
        let _ = of_pair(NONE, 0, 0, 0, OWN).part(&LENT, &LENT);
    }

    #[test]
    #[should_panic(expected = "is it of another version?")]
    fn there_are_two_payloads() {
        let _ = of_pair(FOUND, 0, 1, 1, 3).part(&LENT, &LENT);
    }

    #[test]
    #[should_panic(expected = "is it of another version?")]
    fn what_is_joined_is_nobodys() {
        let _ = of_pair(FOUND, 0, 0, 4, SEPARATE).written(4);
    }

    #[test]
    #[should_panic(expected = "is it of another version?")]
    fn a_damaged_payload_is_somebodys() {
        let _ = of_pair(REFUSED, 11, 5, 0, NOBODY).written(4);
    }

    #[test]
    #[should_panic(expected = "is it of another version?")]
    fn an_output_that_is_too_short_is_nobodys() {
        let _ = of_pair(REFUSED, 13, 5, 0, OWN).written(4);
    }

    #[test]
    fn a_hold_is_one_of_eight() {
        assert_eq!(answer(FOUND, 0, 0, 7).hold(), Ok(Hold(7)));
        let refusal = answer(REFUSED, 25, 0, 0).hold().unwrap_err();
        assert_eq!((refusal.number(), refusal.offset()), (25, 0));
    }

    #[test]
    #[should_panic(expected = "is it of another version?")]
    fn there_is_no_ninth_hold() {
        let _ = answer(FOUND, 0, 0, 8).hold();
    }

    #[test]
    #[should_panic(expected = "is it of another version?")]
    fn an_open_gives_a_hold_or_is_refused() {
        let _ = answer(NONE, 0, 0, 0).hold();
    }

    #[test]
    fn a_name_is_copied_or_there_is_none() {
        assert_eq!(answer(FOUND, 0, 0, 4).copied(4), Ok(Some(4)));
        assert_eq!(answer(FOUND, 0, 0, 0).copied(0), Ok(Some(0)));
        assert_eq!(answer(NONE, 0, 0, 0).copied(4), Ok(None));
        let refusal = answer(REFUSED, 13, 5, 0).copied(4).unwrap_err();
        assert_eq!((refusal.number(), refusal.offset()), (13, 5));
    }

    #[test]
    #[should_panic(expected = "is it of another version?")]
    fn no_more_of_a_name_is_copied_than_there_is_room() {
        let _ = answer(FOUND, 0, 0, 5).copied(4);
    }

    #[test]
    fn a_call_of_which_nothing_more_is_said_is_granted_or_not() {
        assert_eq!(answer(FOUND, 0, 0, 0).granted(), Ok(()));
        assert_eq!(
            answer(REFUSED, 24, 0, 0).granted().unwrap_err().number(),
            24
        );
    }

    #[test]
    #[should_panic(expected = "is it of another version?")]
    fn nothing_more_is_said_of_it() {
        let _ = answer(FOUND, 0, 0, 1).granted();
    }

    #[test]
    fn a_part_is_taken_as_a_whole() {
        assert_eq!(answer(FOUND, 0, 0, 4).taken(4), Ok(()));
        let refusal = answer(REFUSED, 28, 0, 0).taken(4).unwrap_err();
        assert_eq!((refusal.number(), refusal.offset()), (28, 0));
    }

    #[test]
    #[should_panic(expected = "is it of another version?")]
    fn a_part_is_not_taken_half() {
        let _ = answer(FOUND, 0, 0, 3).taken(4);
    }

    /// Of a module with two sections, and no payload among them.
    const TWO_SECTIONS: StreamAnswer = StreamAnswer {
        kind: FOUND,
        code: 0,
        offset: 0,
        length: 2,
        name_kind: 0,
        name_offset: 0,
        name_length: 0,
        hints_kind: 0,
        hints_offset: 0,
        hints_length: 0,
        old_hints_kind: 0,
        old_hints_offset: 0,
        old_hints_length: 0,
    };

    /// The same with names, which end at the byte 9.
    const WITH_NAMES: StreamAnswer = StreamAnswer {
        name_kind: 1,
        name_offset: 5,
        name_length: 4,
        ..TWO_SECTIONS
    };

    #[test]
    fn each_place_is_its_own() {
        let nowhere = Walked {
            section_count: 2,
            name: None,
            hints: None,
            old_hints: None,
        };
        assert_eq!(TWO_SECTIONS.walked(9), Ok(nowhere));
        let places = StreamAnswer {
            hints_kind: 1,
            hints_offset: 9,
            old_hints_kind: 1,
            old_hints_length: 3,
            ..WITH_NAMES
        };
        let place = |offset, length| Some(Place { offset, length });
        let walked = Walked {
            name: place(5, 4),
            hints: place(9, 0),
            old_hints: place(0, 3),
            ..nowhere
        };
        assert_eq!(places.walked(9), Ok(walked));
    }

    #[test]
    fn a_module_that_arrived_may_be_refused() {
        let refused = StreamAnswer {
            kind: REFUSED,
            code: 5,
            offset: 8,
            length: 0,
            ..TWO_SECTIONS
        };
        let refusal = refused.walked(9).unwrap_err();
        assert_eq!((refusal.number(), refusal.offset()), (5, 8));
    }

    #[test]
    #[should_panic(expected = "is it of another version?")]
    fn a_place_beyond_what_arrived_is_a_misfit() {
        let _ = WITH_NAMES.walked(8);
    }

    #[test]
    #[should_panic(expected = "is it of another version?")]
    fn a_place_whose_end_has_no_number_is_a_misfit() {
        let endless = StreamAnswer {
            name_length: u64::MAX,
            ..WITH_NAMES
        };
        let _ = endless.walked(u64::MAX);
    }

    #[test]
    #[should_panic(expected = "is it of another version?")]
    fn a_place_is_there_or_not() {
        let neither = StreamAnswer {
            name_kind: 1 << 32,
            ..WITH_NAMES
        };
        let _ = neither.walked(9);
    }

    #[test]
    #[should_panic(expected = "is it of another version?")]
    fn a_walk_is_never_none() {
        let none = StreamAnswer {
            kind: NONE,
            ..TWO_SECTIONS
        };
        let _ = none.walked(9);
    }

    #[test]
    fn every_reason_has_its_number() {
        for number in (1..=15).chain(17..=30) {
            let refusal = answer(REFUSED, number, 7, 0).length().unwrap_err();
            assert_eq!((refusal.number(), refusal.offset()), (number, 7));
            assert_eq!(answer(REFUSED, number, 7, 0).hint().unwrap_err(), refusal);
        }
    }
}
