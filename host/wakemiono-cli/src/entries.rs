//! All names of a payload, as the library lists them: subsection by subsection, and in each by index.

use wakemiono::{Name, NamePayload};

use crate::edition::Edition;
use crate::question::{Kind, Question};
use crate::report::Failure;

/// What one subsection holds: questions, each with its answer.
pub type Rows<'a> = Box<dyn Iterator<Item = (Question, Name<'a>)> + 'a>;

/// Which subsection, and what it holds.
#[derive(Clone, Copy, Debug, PartialEq, Eq)]
pub struct Subsection {
    /// The id.
    pub id: u8,
    /// The kind of its names, or that it is kept.
    pub kind: Kind,
}

impl Subsection {
    /// Those of an accepted payload, in its order: all, or those of one kind.
    pub fn all<E: Edition>(
        payload: NamePayload<'_, E>,
        wanted: Option<Kind>,
    ) -> Result<Vec<Subsection>, Failure> {
        // What was accepted is not refused now.
        let subsections = payload.subsections().map_err(|_| Failure::Misfit)?;
        let subsections = subsections.map(|(id, _)| Subsection {
            id,
            kind: E::kind(id),
        });
        let is_wanted = |it: &Subsection| wanted.map_or(true, |kind| it.kind == kind);
        Ok(subsections.filter(is_wanted).collect())
    }

    /// What it holds in an accepted payload, which may not have it.
    pub fn rows<E: Edition>(self, payload: NamePayload<'_, E>) -> Result<Rows<'_>, Failure> {
        E::rows(self, payload).map_err(|_| Failure::Misfit)
    }
}
