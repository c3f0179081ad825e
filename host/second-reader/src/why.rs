//! Why a function or a local has no name, or where the name stands that it has.
//!
//! The payload is judged by the first edition. Who uses the wider one asks there first: what it
//! accepts has the same names of functions and locals here.

use std::cmp::Ordering;

use crate::answer::{Kind, Refusal, Why};
use crate::edition::{id, Edition};
use crate::names;
use crate::reading::Part;

/// Why a function has no name, or where its name stands.
pub fn why_function(payload: &[u8], function: u32) -> Why {
    ask_function(payload, function).unwrap_or_else(Why::from)
}

/// Why a local in a function has no name, or where its name stands.
pub fn why_local(payload: &[u8], function: u32, local: u32) -> Why {
    ask_local(payload, function, local).unwrap_or_else(Why::from)
}

fn ask_function(payload: &[u8], function: u32) -> Result<Why, Refusal> {
    let contents = names::contents(payload, Edition::First, id::FUNCTIONS)?;
    let Some(mut map) = contents else {
        return Ok(Kind::NoSubsection.into());
    };
    Ok(Around::read(&mut map, function)?.why(id::FUNCTIONS))
}

fn ask_local(payload: &[u8], function: u32, local: u32) -> Result<Why, Refusal> {
    let contents = names::contents(payload, Edition::First, id::LOCALS)?;
    let Some(mut groups) = contents else {
        return Ok(Kind::NoSubsection.into());
    };
    let mut why = Kind::NoGroup.into();
    groups.ascending_list(|part, primary| {
        let around = Around::read(part, local)?;
        if primary == function {
            why = around.why(id::LOCALS);
        }
        Ok(())
    })?;
    Ok(why)
}

/// What a name map has at an index, and around it.
#[derive(Default)]
struct Around {
    /// How many indices the map has below it, which is also its own position, if it is there.
    count_below: u64,
    below: Option<u32>,
    is_there: bool,
    above: Option<u32>,
}

impl Around {
    /// Reads a map to its end. Its indices rise, so that below the last one met is the nearest, and
    /// above the first.
    fn read(map: &mut Part<'_>, wanted: u32) -> Result<Around, Refusal> {
        let mut around = Around::default();
        map.ascending_list(|part, index| {
            match index.cmp(&wanted) {
                Ordering::Less => {
                    around.count_below += 1;
                    around.below = Some(index);
                }
                Ordering::Equal => around.is_there = true,
                Ordering::Greater => around.above = around.above.or(Some(index)),
            }
            part.sized().map(drop) // its text was judged
        })?;
        Ok(around)
    }

    fn why(&self, subsection: u8) -> Why {
        match self.is_there {
            true => Why::found(subsection, self.count_below),
            false => Why::no_entry(self.below, self.above),
        }
    }
}
