//! Three customers share a small store. One of them leaves, and then there is room enough for a large
//! payload, but not in one piece, until the gaps are closed.

use std::error::Error;
use std::io::{self, Write};

use wakemiono::{function_names, Customer, FunctionIndex, Name, NamePayload, SharedTable};

/// Too long for one block, and not for two.
const LONG_NAME: usize = 600;

fn main() -> Result<(), Box<dyn Error>> {
    tell(&mut io::stdout())
}

/// Prints what happens, line by line.
pub fn tell(out: &mut impl Write) -> Result<(), Box<dyn Error>> {
    let (one, other, third) = (Customer(0), Customer(1), Customer(2));
    let mut table = SharedTable::new(3)?;

    let of_one = function_names([(FunctionIndex(0), "start")])?;
    let hold_of_one = table.open(one, NamePayload::new(&of_one))?;
    let of_other = function_names([(FunctionIndex(0), "main")])?;
    let hold_of_other = table.open(other, NamePayload::new(&of_other))?;
    writeln!(out, "customers {one} and {other} have a block each of 3")?;
    table.close(one, hold_of_one)?;
    writeln!(out, "customer {one} closes: one block is free on each side")?;

    let long = function_names([(FunctionIndex(0), "n".repeat(LONG_NAME))])?;
    if let Err(refusal) = table.open(third, NamePayload::new(&long)) {
        writeln!(out, "customer {third} opens two blocks: {refusal}")?;
        writeln!(out, "  what to do: {}", refusal.reason().advice())?;
    }
    table.compact()?;
    writeln!(out, "the gaps are closed")?;
    let hold = table.open(third, NamePayload::new(&long))?;
    writeln!(out, "customer {third} opens two blocks: hold {hold}")?;

    if let Some(name) = table.function_name(other, hold_of_other, FunctionIndex(0))? {
        let name = Name::from(&name[..]);
        writeln!(out, "customer {other} asks for function 0: {name}")?;
    }
    Ok(())
}
