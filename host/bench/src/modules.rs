//! Whole modules: made ones, and those of two fixtures. They are walked over, and given in parts.

use std::fs;

use comparison::fixtures;
use comparison::random::Random;

use crate::bytes::{custom_section, module, section};
use crate::payload::{Kind, Payload};
use crate::texts;

/// Any number would do, but another one makes other bytes, and other counts in docs/bench.tsv.
const SEED: u64 = 0x57A5_4D17;

/// How many sections the one with many has, and how many that with long names.
const MANY: usize = 10_000;
const LONG_NAMED: usize = 1_000;

/// How many bytes of contents the sections of the one with large contents have, each of them.
const LARGE: usize = 100_000;

/// The ids of the sections that are not custom, in their order.
const ORDER: [u8; 13] = [1, 2, 3, 4, 5, 13, 6, 7, 8, 9, 12, 10, 11];

/// The names of custom sections that compilers write.
const TOOLS_NAMES: [&str; 8] = [
    "name",
    "producers",
    "target_features",
    ".debug_info",
    ".debug_line",
    "linking",
    "reloc.CODE",
    "sourceMappingURL",
];

/// The name of the module whose contents are large.
pub const LARGE_CONTENTS: &str = "module-large-contents";

/// How a module is made.
struct Recipe {
    name: &'static str,
    make: fn(&mut Random) -> Vec<u8>,
}

const RECIPES: [Recipe; 5] = [
    Recipe {
        name: "module-many-sections",
        make: many_sections,
    },
    Recipe {
        name: "module-long-names",
        make: long_names,
    },
    Recipe {
        name: LARGE_CONTENTS,
        make: large_contents,
    },
    Recipe {
        name: "module-rustc",
        make: |_| fixture("rustc"),
    },
    Recipe {
        name: "module-clang",
        make: |_| fixture("clang-lld-dwarf"),
    },
];

/// The names of the modules.
pub fn all() -> impl Iterator<Item = &'static str> {
    RECIPES.iter().map(|recipe| recipe.name)
}

/// The module of a name.
pub fn payload(name: &str) -> Option<Payload> {
    let recipe = RECIPES.iter().find(|recipe| recipe.name == name)?;
    let bytes = (recipe.make)(&mut Random::new(SEED));
    Some(Payload::alone(name, Kind::Module, bytes))
}

/// Custom sections with the names that tools give and a few bytes in each; of those with names there may be one.
fn many_sections(r: &mut Random) -> Vec<u8> {
    let one = |at: usize| {
        let name = match at {
            0 => TOOLS_NAMES[0],
            _ => r.one_of(&TOOLS_NAMES[1..]),
        };
        let contents = vec![0; r.below(40)];
        custom_section(name, &contents)
    };
    module(&(0..MANY).flat_map(one).collect::<Vec<u8>>())
}

/// Custom sections with names of about a hundred bytes, every second of them in characters of several bytes.
fn long_names(r: &mut Random) -> Vec<u8> {
    let one = |at: usize| {
        let name = match at % 2 {
            0 => texts::ascii(r, 100),
            _ => texts::characters(r, '\u{80}', '\u{D7FF}', 35),
        };
        custom_section(&name, &[])
    };
    module(&(0..LONG_NAMED).flat_map(one).collect::<Vec<u8>>())
}

/// Every section that is not custom, each with large contents, and one with names.
fn large_contents(_: &mut Random) -> Vec<u8> {
    let contents = vec![0; LARGE];
    let mut sections: Vec<u8> = ORDER
        .iter()
        .flat_map(|id| section(*id, &contents))
        .collect();
    sections.extend(custom_section("name", &contents));
    module(&sections)
}

fn fixture(name: &str) -> Vec<u8> {
    fs::read(fixtures::module(name)).expect("a fixture can be read")
}

#[cfg(test)]
mod tests {
    use super::*;
    use comparison::library::{walk, FOUND};

    #[test]
    fn they_are_accepted_and_have_the_intended_sections() {
        for (name, sections) in [
            ("module-many-sections", MANY),
            ("module-long-names", LONG_NAMED),
            (LARGE_CONTENTS, ORDER.len() + 1),
            ("module-rustc", 11),
            ("module-clang", 17),
        ] {
            let told = walk(&payload(name).expect("there is such a module").bytes);
            assert_eq!((told.kind, told.length), (FOUND, sections as u64), "{name}");
        }
    }
}
