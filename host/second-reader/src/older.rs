//! The older edition of branch hints, the payload of a section `branchHints`: its judgement, the
//! questions put to it and its canonical form.
//!
//! It demands no order and allows repeats, and its offsets count from a function's first
//! instruction, so it shares no list with the newer edition.

use crate::answer::{Answer, Kind, Reason, Refusal};
use crate::reading::Part;
use crate::walk::{payload_of, OLDER_HINTS};
use crate::writing::{Length, Sink, Writer};

/// What stands between the function of an entry and its hints.
const ZERO: u8 = 0;

/// The greatest payload that a canonical form may be: the size of a section has 32 bits.
const LONGEST: u64 = u32::MAX as u64;

/// Judges a payload of hints of the older edition. Found, where it is accepted: offset 0 and the
/// payload's length.
pub fn old_hints_judge(payload: &[u8]) -> Answer {
    let judged = read(Part::whole(payload), |_| {});
    Answer::counted(judged.map(|()| payload.len() as u64))
}

/// The first hint in the payload for an offset in a function.
pub fn old_hint(payload: &[u8], function: u32, offset: u32) -> Answer {
    Answer::of(ask(Part::whole(payload), function, offset))
}

/// The same, asked through the module.
pub fn old_hint_in(module: &[u8], function: u32, offset: u32) -> Answer {
    Answer::of(ask_through(module, function, offset))
}

/// Writes the canonical form of a payload of hints of the older edition at the front of `out`.
pub fn old_hints_canonical(payload: &[u8], out: &mut [u8]) -> Answer {
    Answer::counted(rewrite(payload, out))
}

/// One hint, in the words of the payload.
#[derive(Clone, Copy)]
pub(crate) struct OldHint {
    pub function: u32,
    pub offset: u32,
    pub likely: bool,
}

impl OldHint {
    fn place(&self) -> (u32, u32) {
        (self.function, self.offset)
    }

    fn kind(&self) -> Kind {
        match self.likely {
            false => Kind::Unlikely,
            true => Kind::Likely,
        }
    }
}

/// The payload is read to its end, past the answer, so that it is judged whole.
fn ask(payload: Part<'_>, function: u32, offset: u32) -> Result<Option<Kind>, Refusal> {
    let mut first = None;
    read(payload, |hint| {
        if first.is_none() && hint.place() == (function, offset) {
            first = Some(hint.kind());
        }
    })?;
    Ok(first)
}

fn ask_through(module: &[u8], function: u32, offset: u32) -> Result<Option<Kind>, Refusal> {
    let Some(payload) = payload_of(module, |name| name == OLDER_HINTS)? else {
        return Ok(None);
    };
    ask(payload, function, offset)
}

/// Reads and checks the payload to its end, and meets every hint in its order.
fn read(payload: Part<'_>, mut meet: impl FnMut(OldHint)) -> Result<(), Refusal> {
    let mut rest = payload;
    for _ in 0..rest.number()? {
        let function = rest.number()?;
        read_zero(&mut rest)?;
        for _ in 0..rest.number()? {
            let likely = read_kind(&mut rest)?;
            let offset = rest.number()?;
            meet(OldHint {
                function,
                offset,
                likely,
            });
        }
    }
    rest.finish()
}

fn read_zero(rest: &mut Part<'_>) -> Result<(), Refusal> {
    let at = rest.offset();
    match rest.byte() {
        Some(ZERO) => Ok(()),
        Some(_) => Err(Reason::NotZero.at(at)),
        None => Err(Reason::PastEnd.at(at)),
    }
}

/// A kind is refused before the offset behind it is looked at.
fn read_kind(rest: &mut Part<'_>) -> Result<bool, Refusal> {
    let at = rest.offset();
    match rest.number()? {
        0 => Ok(false),
        1 => Ok(true),
        _ => Err(Reason::NotAHint.at(at)),
    }
}

/// The hints of a payload by function and offset, of those for one place the first.
pub(crate) fn in_order(payload: &[u8]) -> Result<Vec<OldHint>, Refusal> {
    let mut hints = vec![];
    read(Part::whole(payload), |hint| hints.push(hint))?;
    // Sorting keeps the order of hints for one place, so that the first one is the one that stays.
    hints.sort_by_key(OldHint::place);
    hints.dedup_by_key(|hint| hint.place());
    Ok(hints)
}

fn rewrite(payload: &[u8], out: &mut [u8]) -> Result<u64, Refusal> {
    let hints = in_order(payload)?;
    let mut length = Length::default();
    write(&hints, &mut length);
    let needed = room_for(length.0)?;
    let mut writer = Writer::with_room(out, needed)?;
    write(&hints, &mut writer);
    Ok(writer.written())
}

/// Refuses what no section could hold, before the output is looked at.
fn room_for(length: u64) -> Result<u64, Refusal> {
    if length > LONGEST {
        return Err(Reason::SubsectionTooLarge.with(0));
    }
    Ok(length)
}

/// Hands on sorted hints as one entry for each function.
fn write(hints: &[OldHint], sink: &mut impl Sink) {
    let entries = || hints.chunk_by(|one, next| one.function == next.function);
    sink.number(entries().count() as u32);
    for entry in entries() {
        sink.number(entry[0].function);
        sink.bytes(&[ZERO]);
        sink.number(entry.len() as u32);
        for hint in entry {
            sink.number(hint.likely.into());
            sink.number(hint.offset);
        }
    }
}

#[cfg(test)]
mod tests {
    use super::*;

    #[test]
    fn only_what_a_section_cannot_hold_is_too_long() {
        assert_eq!(room_for(4_294_967_295), Ok(4_294_967_295));
        let refusal = Reason::SubsectionTooLarge.with(0);
        assert_eq!(room_for(4_294_967_296), Err(refusal));
    }
}
