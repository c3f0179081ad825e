//! Some sections of a module that is not held whole, as a module of their own.

use wakemiono::{Module, Place, Refusal};

/// A module of sections that stand in another one, in the same order.
#[derive(Debug)]
pub struct Excerpt {
    bytes: Vec<u8>,
    taken: Vec<Taken>,
}

/// Where a section begins.
#[derive(Debug)]
struct Taken {
    here: u64,
    in_whole: u64,
    length: u64,
}

impl Excerpt {
    /// One without sections, which begins as the whole module does.
    pub fn new(preamble: &[u8]) -> Excerpt {
        Excerpt {
            bytes: preamble.to_vec(),
            taken: Vec::new(),
        }
    }

    /// Takes a section, all of it, that begins at an offset of the whole module.
    pub fn take(&mut self, in_whole: u64, section: &[u8]) {
        self.taken.push(Taken {
            here: self.bytes.len() as u64,
            in_whole,
            length: section.len() as u64,
        });
        self.bytes.extend(section);
    }

    /// The module.
    pub fn module(&self) -> Module<'_> {
        Module::new(&self.bytes)
    }

    /// A refusal of what a section holds, as it is counted from the start of the whole module. One at
    /// the very end of a section is of that section, and not of the next.
    pub fn in_whole(&self, refusal: Refusal) -> Refusal {
        let before = |taken: &&Taken| taken.here < refusal.offset();
        let section = self.taken.iter().rfind(before);
        section.map_or(refusal, |taken| {
            refusal.in_module(Place {
                offset: taken.in_whole - taken.here,
                length: taken.length,
            })
        })
    }
}
