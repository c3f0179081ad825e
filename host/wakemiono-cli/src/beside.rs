//! A module, and names that came apart from it.

use std::ffi::OsStr;

use wakemiono::{Name, NamePayload, Pair, Refusal, Whose};

use crate::edition::Edition;
use crate::input::Input;
use crate::json::Json;
use crate::payloads;
use crate::question::{Answer, Question};
use crate::report::Failure;

/// How a file begins that is a module. No name payload that is accepted begins so: by its first two
/// bytes it would have a module name in 97 bytes, and by the third one of 115.
const MODULE: &[u8] = b"\0asm";

/// What was read: a module, and its names in a file of their own.
#[derive(Debug)]
pub struct Beside<E: Edition> {
    module: Input<E>,
    names: Input<E>,
}

/// What the library has found, and whose it is.
pub type Found<'a> = (Whose, Answer<'a>);

impl<E: Edition> Beside<E> {
    /// Reads both files, of which one may be `-` for standard input.
    pub fn read(module: &OsStr, names: &OsStr) -> Result<Beside<E>, Failure> {
        Ok(Beside {
            module: Input::read(module)?,
            names: Input::read(names)?,
        })
    }

    /// Both payloads, once they are accepted. As the library does, it is said of the separate one
    /// first that it is not; the offset counts from the start of the file.
    pub fn pair(&self) -> Result<Pair<'_, '_, E>, Failure> {
        let separate = self.accepted(Whose::Separate, names_in(&self.names))?;
        let own = self.accepted(Whose::Own, payloads::names(self.module.module()))?;
        Ok(Pair::new(separate, own.unwrap_or(no_names())))
    }

    /// The canonical payload that is joined of an accepted pair. A refusal is then about what would be
    /// the module's.
    pub fn joined(&self, pair: Pair<'_, '_, E>) -> Result<Vec<u8>, Failure> {
        let joined = pair.to_joined().map_err(|refused| refused.refusal());
        self.module.accepted(joined)
    }

    /// Puts a question to an accepted pair.
    pub fn ask<'a>(
        &'a self,
        question: Question,
        pair: Pair<'a, 'a, E>,
    ) -> Result<Option<Found<'a>>, Failure> {
        // What was accepted is not refused now.
        let supplied = E::ask_pair(question, pair).map_err(|_| Failure::Misfit)?;
        Ok(supplied.map(|name| {
            let whose = name.whose();
            (whose, self.answer(question, whose, name.into_inner()))
        }))
    }

    /// What was found in one of the two files.
    pub fn answer<'a>(&'a self, question: Question, whose: Whose, found: Name<'a>) -> Answer<'a> {
        Answer::new(question, self.input(whose).bytes(), found)
    }

    fn input(&self, whose: Whose) -> &Input<E> {
        match whose {
            Whose::Separate => &self.names,
            Whose::Own => &self.module,
        }
    }

    /// What JSON says first: both files, and the edition where that is said.
    pub fn members(&self) -> Vec<(&'static str, Json)> {
        let files = vec![("file", self.module.file()), ("beside", self.names.file())];
        [files, E::members()].concat()
    }

    fn accepted<T>(&self, whose: Whose, answer: Result<T, Refusal>) -> Result<T, Failure> {
        let members = || [self.members(), vec![member(whose)]].concat();
        answer.map_err(|refusal| {
            let refused = self.input(whose).refused(refusal).among(members());
            Failure::Refused(Box::new(refused))
        })
    }
}

/// The names in a file of their own, once they are accepted: those of the `name` section, where the
/// file is a module.
fn names_in<E: Edition>(input: &Input<E>) -> Result<NamePayload<'_, E>, Refusal> {
    if input.bytes().starts_with(MODULE) {
        return Ok(payloads::names(input.module())?.unwrap_or(no_names()));
    }
    let payload = NamePayload::in_edition(input.bytes());
    payload.judge()?;
    Ok(payload)
}

/// The names of a module without a name section.
fn no_names<E: Edition>() -> NamePayload<'static, E> {
    NamePayload::in_edition(&[])
}

/// The word for a payload, in lines and in JSON.
pub const fn word(whose: Whose) -> &'static str {
    match whose {
        Whose::Separate => "separate",
        Whose::Own => "own",
    }
}

/// The member of a JSON object that says whose something is.
pub fn member(whose: Whose) -> (&'static str, Json) {
    ("whose", Json::text(word(whose)))
}

#[cfg(test)]
mod tests {
    use super::*;

    #[test]
    fn no_accepted_payload_begins_as_a_module_does() {
        for length in [MODULE.len(), 99, 200, 1_000] {
            let mut payload = vec![b'm'; length];
            payload[..MODULE.len()].copy_from_slice(MODULE);
            let judged = NamePayload::new(&payload).judge();
            assert_eq!(judged.unwrap_err().number(), 2, "{length} bytes");
        }
    }
}
