//! Whether every branch hint of a module stands on a branch.
//!
//! The module and its payload of hints are judged first, then the whole list of imports and the whole
//! list of bodies, and then hint by hint in the order of the payload.

use crate::answer::{Answer, Reason, Refusal};
use crate::instructions::{instruction, locals, BR_IF, IF};
use crate::metadata::{self, Format};
use crate::reading::Part;
use crate::walk::{contents_of, payload_of, CODE, HINTS, IMPORT};

/// Kinds of import.
const FUNCTION: u8 = 0;
const TABLE: u8 = 1;
const MEMORY: u8 = 2;
const GLOBAL: u8 = 3;

/// Flags of limits.
const WITHOUT_MAXIMUM: u8 = 0;
const WITH_MAXIMUM: u8 = 1;

/// Judges whether every hint of the section `metadata.code.branch_hint` stands on `br_if` or `if`.
/// Found, where it is accepted: offset 0 and the module's length.
pub fn hints_on_branches(module: &[u8]) -> Answer {
    let checked = check(module);
    Answer::counted(checked.map(|()| module.len() as u64))
}

fn check(module: &[u8]) -> Result<(), Refusal> {
    let Some(payload) = payload_of(module, |name| name == HINTS)? else {
        return Ok(());
    };
    metadata::judge(payload, Format::BranchHint)?;
    let imported = match contents_of(module, IMPORT)? {
        Some(contents) => imported_functions(contents)?,
        None => 0,
    };
    let bodies = match contents_of(module, CODE)? {
        Some(contents) => sized_bodies(contents)?,
        None => vec![],
    };
    let body_of = |function: u32| bodies.get(function.checked_sub(imported)? as usize);
    check_functions(payload, |function| body_of(function).copied())
}

/// How many functions a list of imports has.
fn imported_functions(contents: Part<'_>) -> Result<u32, Refusal> {
    let mut rest = contents;
    let mut functions = 0;
    for _ in 0..rest.number()? {
        rest.name()?;
        rest.name()?;
        functions += u32::from(read_import(&mut rest)? == FUNCTION);
    }
    rest.finish()?;
    Ok(functions)
}

/// What stands behind the names of an import. It says of which kind it is.
fn read_import(rest: &mut Part<'_>) -> Result<u8, Refusal> {
    let kind_at = rest.offset();
    let kind = needed(rest)?;
    match kind {
        FUNCTION => {
            rest.number()?;
        }
        TABLE => {
            needed(rest)?;
            read_limits(rest)?;
        }
        MEMORY => read_limits(rest)?,
        GLOBAL => {
            needed(rest)?;
            needed(rest)?;
        }
        _ => return Err(Reason::UnknownImport.at(kind_at)),
    }
    Ok(kind)
}

fn read_limits(rest: &mut Part<'_>) -> Result<(), Refusal> {
    let flag_at = rest.offset();
    let flag = needed(rest)?;
    if ![WITHOUT_MAXIMUM, WITH_MAXIMUM].contains(&flag) {
        return Err(Reason::UnknownImport.at(flag_at));
    }
    rest.number()?;
    if flag == WITH_MAXIMUM {
        rest.number()?;
    }
    Ok(())
}

/// A byte that has to be there.
fn needed(rest: &mut Part<'_>) -> Result<u8, Refusal> {
    let at = rest.offset();
    rest.byte().ok_or(Reason::PastEnd.at(at))
}

fn sized_bodies(contents: Part<'_>) -> Result<Vec<Part<'_>>, Refusal> {
    let mut rest = contents;
    let mut bodies = vec![];
    for _ in 0..rest.number()? {
        bodies.push(rest.sized()?);
    }
    rest.finish()?;
    Ok(bodies)
}

/// The functions of a payload that is accepted. One without hints needs no body.
fn check_functions<'a>(
    payload: Part<'_>,
    body_of: impl Fn(u32) -> Option<Part<'a>>,
) -> Result<(), Refusal> {
    let mut rest = payload;
    for _ in 0..rest.number()? {
        let function_at = rest.offset();
        let function = rest.number()?;
        let hints = rest.number()?;
        if hints == 0 {
            continue;
        }
        let no_body = Reason::NoBody.at(function_at);
        let body = body_of(function).ok_or(no_body)?;
        check_hints(&mut rest, hints, body)?;
    }
    Ok(())
}

/// The hints of one function. Their offsets rise, so the body is stepped over once.
fn check_hints(rest: &mut Part<'_>, hints: u32, body: Part<'_>) -> Result<(), Refusal> {
    let mut code = Code::of(body);
    for _ in 0..hints {
        let offset_at = rest.offset();
        let place = body.offset() + rest.number()? as usize;
        rest.sized()?;
        let Some(next) = code.next_from(place) else {
            return Err(Reason::UnreadableCode.at(offset_at));
        };
        if next != Next::Branch(place) {
            return Err(Reason::NotOnABranch.at(offset_at));
        }
    }
    Ok(())
}

/// What begins behind the instructions that were stepped over.
#[derive(PartialEq, Eq)]
enum Next {
    /// A `br_if` or an `if`, at this offset.
    Branch(usize),
    /// Another byte, or the end of the body.
    Other,
}

/// A body as far as it has been stepped over; none where its locals cannot be read.
struct Code<'a>(Option<Part<'a>>);

impl<'a> Code<'a> {
    fn of(body: Part<'a>) -> Self {
        let mut rest = body;
        Code(locals(&mut rest).map(|()| rest))
    }

    /// Steps over every instruction that begins before a place, and says what comes next; none where
    /// the locals or one of these cannot be read.
    fn next_from(&mut self, place: usize) -> Option<Next> {
        let rest = self.0.as_mut()?;
        while rest.offset() < place && !rest.bytes().is_empty() {
            instruction(rest)?;
        }
        Some(match rest.bytes().first() {
            Some(&(IF | BR_IF)) => Next::Branch(rest.offset()),
            _ => Next::Other,
        })
    }
}
