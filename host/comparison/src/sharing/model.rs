//! A table that knows no blocks: payloads with their users, and what each customer holds.
//!
//! It says what a call is to answer and to leave in its buffer. Two things are not known to it: whether there is room
//! for a payload that is not stored yet, and which block a damaged byte is in. There it says which refusal may be given
//! in place of its own answer, and takes the word of the table that it is held against. That the gaps are closed
//! changes nothing of what is held; but then, up to the next close, it knows whether there is room, by counting.

use std::collections::BTreeMap;
use std::rc::Rc;

use super::refusals::{
    ALL_HOLDS_OPEN, DAMAGED, NOT_OPEN, NO_CUSTOMER, NO_ROOM, OTHER_STORE, OUTPUT_TOO_SHORT,
};
use super::{
    count, is_store, Call, Difference, Met, Seen, Shop, Step, Table, BLOCK, CUSTOMERS, HOLDS,
    PAYLOAD,
};
use crate::library::{Told, FOUND, NONE, REFUSED};
use crate::sharing::history::{Event, History};
use crate::tally::UNTOUCHED;

/// The payloads that a customer has open.
type Holds = [Option<Rc<[u8]>>; HOLDS as usize];

/// What every customer has open.
pub struct Model {
    store_length: usize,
    held: [Holds; CUSTOMERS as usize],
    users: BTreeMap<Rc<[u8]>, usize>,
    /// Whether the gaps were closed, and no hold since.
    without_gaps: bool,
}

/// What a call is to answer and to leave, and the refusals that may stand in place of the answer.
struct Foreseen {
    seen: Seen,
    or_refused: Vec<u32>,
}

impl Model {
    /// Of a table over a store of a length.
    pub fn new(store_length: usize) -> Model {
        Model {
            store_length,
            held: Default::default(),
            users: BTreeMap::new(),
            without_gaps: false,
        }
    }

    /// How many granted opens of each payload have not been closed.
    pub fn users(&self) -> &BTreeMap<Rc<[u8]>, usize> {
        &self.users
    }

    /// Holds what was seen of a call to what is foreseen, and goes on from there.
    pub fn follow(
        &mut self,
        step: &Step<'_>,
        seen: &Seen,
        is_damaged: bool,
    ) -> Result<(), Difference> {
        let foreseen = self.foresee(step);
        if foreseen.seen != *seen && !foreseen.may_be_refused(step, seen, is_damaged) {
            let foreseen = foreseen.seen;
            return Err(format!("{step:?}: {seen:?}, and the model {foreseen:?}"));
        }
        if seen.told.kind == FOUND {
            self.granted(step, seen.told.length);
        }
        Ok(())
    }

    fn foresee(&self, step: &Step<'_>) -> Foreseen {
        let length = step.store_length;
        if !is_store(length) || length != self.store_length {
            return Foreseen::refusal(step, OTHER_STORE, 0);
        }
        match (step.call, self.held.get(step.customer as usize)) {
            (Call::Compact, _) => Foreseen {
                or_refused: vec![DAMAGED],
                ..Foreseen::only(found(0), untouched(step))
            },
            (_, None) => Foreseen::refusal(step, NO_CUSTOMER, 0),
            (Call::Open { payload, .. }, Some(holds)) => self.foresee_open(step, holds, payload),
            (Call::FunctionName { hold, function, .. }, Some(holds)) => {
                match open_at(holds, hold) {
                    Some(payload) => foresee_name(step, payload, function),
                    None => Foreseen::refusal(step, NOT_OPEN, 0),
                }
            }
            (Call::Close { hold }, Some(holds)) => match open_at(holds, hold) {
                Some(_) => Foreseen::only(found(0), untouched(step)),
                None => Foreseen::refusal(step, NOT_OPEN, 0),
            },
        }
    }

    fn foresee_open(&self, step: &Step<'_>, holds: &Holds, payload: &[u8]) -> Foreseen {
        let canonical = match canonical(payload) {
            Ok(canonical) => canonical,
            Err(told) => return Foreseen::only(told, untouched(step)),
        };
        if canonical.len() > step.room() {
            return Foreseen::refusal(step, OUTPUT_TOO_SHORT, canonical.len() as u64);
        }
        let Some(hold) = holds.iter().position(Option::is_none) else {
            return Foreseen::refusal(step, ALL_HOLDS_OPEN, 0);
        };
        let (told, or_refused) = match self.has_room(&canonical) {
            Some(true) => (found(hold as u64), vec![DAMAGED]),
            Some(false) => (refused(NO_ROOM, 0), vec![DAMAGED]),
            None => (found(hold as u64), vec![DAMAGED, NO_ROOM]),
        };
        let output = begun_with(&canonical, step);
        Foreseen {
            seen: Seen { told, output },
            or_refused,
        }
    }

    /// Whether a payload is stored or there is room for it, where that is known.
    fn has_room(&self, payload: &[u8]) -> Option<bool> {
        if self.users.contains_key(payload) {
            return Some(true);
        }
        let used: usize = self.users.keys().map(|stored| blocks(stored)).sum();
        let is_room = used + blocks(payload) <= self.store_length / BLOCK;
        self.without_gaps.then_some(is_room)
    }

    /// What a granted call changes.
    fn granted(&mut self, step: &Step<'_>, length: u64) {
        let customer = step.customer as usize;
        match step.call {
            Call::FunctionName { .. } => {}
            Call::Open { payload, .. } => {
                let payload: Rc<[u8]> = canonical(payload).expect("it was granted").into();
                self.held[customer][length as usize] = Some(payload.clone());
                *self.users.entry(payload).or_default() += 1;
            }
            Call::Close { hold } => {
                let hold = &mut self.held[customer][hold as usize];
                let payload = hold.take().expect("it was granted");
                self.without_gaps = false;
                let users = self.users.get_mut(&payload).expect("it was open");
                *users -= 1;
                if *users == 0 {
                    self.users.remove(&payload);
                }
            }
            Call::Compact => self.without_gaps = true,
        }
    }
}

/// How many blocks a payload takes.
fn blocks(payload: &[u8]) -> usize {
    payload.len().div_ceil(PAYLOAD).max(1)
}

impl Foreseen {
    fn only(told: Told, output: Vec<u8>) -> Foreseen {
        Foreseen {
            seen: Seen { told, output },
            or_refused: vec![],
        }
    }

    fn refusal(step: &Step<'_>, code: u32, offset: u64) -> Foreseen {
        Foreseen::only(refused(code, offset), untouched(step))
    }

    /// Whether what was seen is a refusal that may stand here, with the buffer as it leaves it.
    fn may_be_refused(&self, step: &Step<'_>, seen: &Seen, is_damaged: bool) -> bool {
        let code = seen.told.code;
        let output = match step.call {
            Call::Open { .. } => self.seen.output.clone(),
            _ => untouched(step),
        };
        let refusal = Seen {
            told: refused(code, 0),
            output,
        };
        self.or_refused.contains(&code) && (is_damaged || code != DAMAGED) && *seen == refusal
    }
}

fn open_at(holds: &Holds, hold: u32) -> Option<&[u8]> {
    holds.get(hold as usize)?.as_deref()
}

fn foresee_name(step: &Step<'_>, payload: &[u8], function: u32) -> Foreseen {
    let asked = Told::from(second_reader::function_name(payload, function));
    let name = &payload[asked.offset as usize..][..asked.length as usize];
    let mut foreseen = match asked.kind {
        NONE => Foreseen::only(asked, untouched(step)),
        _ if name.len() > step.room() => Foreseen::refusal(step, OUTPUT_TOO_SHORT, asked.length),
        _ => Foreseen::only(found(asked.length), begun_with(name, step)),
    };
    foreseen.or_refused = vec![DAMAGED];
    foreseen
}

fn canonical(payload: &[u8]) -> Result<Vec<u8>, Told> {
    let mut out = vec![0; payload.len()];
    let told = Told::from(second_reader::names_canonical(payload, &mut out));
    out.truncate(told.length as usize);
    match told.kind {
        REFUSED => Err(told),
        _ => Ok(out),
    }
}

fn found(length: u64) -> Told {
    Told {
        kind: FOUND,
        code: 0,
        offset: 0,
        length,
    }
}

fn refused(code: u32, offset: u64) -> Told {
    Told {
        kind: REFUSED,
        code,
        offset,
        length: 0,
    }
}

fn untouched(step: &Step<'_>) -> Vec<u8> {
    vec![UNTOUCHED; step.room()]
}

/// A buffer that begins with these bytes, and is untouched behind them.
fn begun_with(bytes: &[u8], step: &Step<'_>) -> Vec<u8> {
    let mut output = untouched(step);
    output[..bytes.len()].copy_from_slice(bytes);
    output
}

/// Puts a history to a table and holds it to the model. After each event it is looked at by the side of the model.
pub fn follow<T: Table>(
    history: &History<'_>,
    met: &mut Met,
    mut look: impl FnMut(&mut Shop<T>, &Model),
) -> Result<(), Difference> {
    let mut shop: Shop<T> = Shop::new(&history.store);
    let mut model = Model::new(history.store.len());
    for event in &history.events {
        match event {
            Event::Damage(damage) => shop.damage(*damage),
            Event::Step(step) => {
                let is_damaged = shop.is_damaged();
                let seen = shop.put(step);
                count(met, step, seen.told);
                model.follow(step, &seen, is_damaged)?;
            }
        }
        look(&mut shop, &model);
    }
    Ok(())
}
