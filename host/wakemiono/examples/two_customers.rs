//! Two customers upload the same names, as two tools have spelled them. They are stored once, and each
//! customer asks through a hold of their own.

use std::error::Error;
use std::io::{self, Write};

use wakemiono::{Customer, FunctionIndex, Name, NamePayload, SharedTable};

/// Function 0 is called `main`.
const BY_ONE_TOOL: [u8; 9] = *b"\x01\x07\x01\x00\x04main";

/// The same with a padded size, as a tool writes it that fills sizes in later.
const BY_ANOTHER: [u8; 13] = *b"\x01\x87\x80\x80\x80\x00\x01\x00\x04main";

fn main() -> Result<(), Box<dyn Error>> {
    tell(&mut io::stdout())
}

/// Prints what happens, line by line.
pub fn tell(out: &mut impl Write) -> Result<(), Box<dyn Error>> {
    let (one, other) = (Customer(0), Customer(1));
    let mut table = SharedTable::new(4)?;

    let hold = table.open(one, NamePayload::new(&BY_ONE_TOOL))?;
    writeln!(out, "customer {one} opens 9 bytes: hold {hold}")?;

    let store = table.store().to_vec();
    let others_hold = table.open(other, NamePayload::new(&BY_ANOTHER))?;
    writeln!(out, "customer {other} opens 13 bytes: hold {others_hold}")?;
    writeln!(out, "stored a second time: {}", table.store() != store)?;

    table.close(one, hold)?;
    writeln!(out, "customer {one} closes hold {hold}")?;
    if let Some(name) = table.function_name(other, others_hold, FunctionIndex(0))? {
        let name = Name::from(&name[..]);
        writeln!(out, "customer {other} asks for function 0: {name}")?;
    }
    if let Err(refusal) = table.function_name(one, hold, FunctionIndex(0)) {
        writeln!(out, "customer {one} asks for function 0: {refusal}")?;
        writeln!(out, "  what to do: {}", refusal.reason().advice())?;
    }
    Ok(())
}
