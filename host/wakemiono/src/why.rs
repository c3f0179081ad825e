//! Why a function or a local has no name, which is asked in the first edition of names alone.

use std::fmt;

use crate::{First, FunctionIndex, LocalIndex, NamePayload, Refusal};

/// Why a function or a local has no name, or where the name stands that it has. Of each of them
/// exactly one of these is true.
///
/// What is displayed can be read out to whoever has the module:
///
/// ```
/// use wakemiono::{FunctionIndex, NamePayload, Why};
///
/// let payload = NamePayload::new(&[0x01, 0x07, 0x02, 0x00, 0x01, 0x61, 0x03, 0x01, 0x62]);
/// let why = payload.why_function(FunctionIndex(1))?;
/// let (below, above) = (Some(FunctionIndex(0)), Some(FunctionIndex(3)));
/// assert_eq!(why, Why::NoEntry { below, above });
/// assert_eq!(
///     format!("function 1 has no name: {why}"),
///     "function 1 has no name: the map of function names has no entry for it; the nearest below \
///      is 0, and the nearest above is 3"
/// );
/// # Ok::<(), wakemiono::Refusal>(())
/// ```
#[derive(Clone, Copy, Debug, PartialEq, Eq, Hash)]
pub enum Why<Index> {
    /// It has a name.
    Named {
        /// The id of the subsection with the name: 1 for a function, 2 for a local.
        subsection: u8,
        /// The position of its entry in the map, counted from 0. The map of a local is that of its
        /// function's group.
        position: u64,
    },
    /// There is no subsection for such names.
    NoSubsection,
    /// The subsection has no group for the local's function. This is never said of a function.
    NoGroup,
    /// The map has no entry for the index. Both are none where it has no entries at all.
    NoEntry {
        /// The nearest index below that has an entry.
        below: Option<Index>,
        /// The nearest index above that has an entry.
        above: Option<Index>,
    },
}

/// What is said in other words of functions than of locals.
struct Words {
    no_subsection: &'static str,
    map: &'static str,
}

const OF_FUNCTIONS: Words = Words {
    no_subsection: "there are no function names, since the name section has no subsection 1",
    map: "the map of function names",
};

const OF_LOCALS: Words = Words {
    no_subsection: "there are no local names, since the name section has no subsection 2",
    map: "its function's map of local names",
};

impl<Index: fmt::Display> Why<Index> {
    fn said(&self, words: &Words) -> String {
        let Words { no_subsection, map } = words;
        match self {
            Why::Named {
                subsection,
                position,
            } => format!(
                "it is entry {position}, counted from 0, in {map} (subsection {subsection})"
            ),
            Why::NoSubsection => (*no_subsection).to_owned(),
            Why::NoGroup => {
                "its function has no local names, since subsection 2 has no group for it".to_owned()
            }
            Why::NoEntry {
                below: None,
                above: None,
            } => format!("{map} is empty"),
            Why::NoEntry { below, above } => {
                let (below, above) = (nearest("below", below), nearest("above", above));
                format!("{map} has no entry for it; {below}, and {above}")
            }
        }
    }
}

/// Which index is the nearest on one side of another.
fn nearest(side: &str, index: &Option<impl fmt::Display>) -> String {
    match index {
        Some(index) => format!("the nearest {side} is {index}"),
        None => format!("there is none {side}"),
    }
}

/// The reason, or where the name stands, of a function.
///
/// ```
/// use wakemiono::{FunctionIndex, Why};
///
/// let why = Why::<FunctionIndex>::NoSubsection;
/// let said = "there are no function names, since the name section has no subsection 1";
/// assert_eq!(why.to_string(), said);
/// ```
impl fmt::Display for Why<FunctionIndex> {
    fn fmt(&self, f: &mut fmt::Formatter<'_>) -> fmt::Result {
        f.pad(&self.said(&OF_FUNCTIONS))
    }
}

/// The reason, or where the name stands, of a local.
///
/// ```
/// use wakemiono::{LocalIndex, Why};
///
/// let why = Why::<LocalIndex>::NoGroup;
/// let said = "its function has no local names, since subsection 2 has no group for it";
/// assert_eq!(why.to_string(), said);
/// ```
impl fmt::Display for Why<LocalIndex> {
    fn fmt(&self, f: &mut fmt::Formatter<'_>) -> fmt::Result {
        f.pad(&self.said(&OF_LOCALS))
    }
}

impl NamePayload<'_> {
    /// Why a function has no name, or where the name stands that it has.
    ///
    /// ```
    /// use wakemiono::{FunctionIndex, NamePayload, Why};
    ///
    /// let payload = NamePayload::new(&[0x01, 0x07, 0x02, 0x00, 0x01, 0x61, 0x03, 0x01, 0x62]);
    /// let named = Why::Named { subsection: 1, position: 1 };
    /// assert_eq!(payload.why_function(FunctionIndex(3))?, named);
    /// let behind_all = Why::NoEntry { below: Some(FunctionIndex(3)), above: None };
    /// assert_eq!(payload.why_function(FunctionIndex(4))?, behind_all);
    /// # Ok::<(), wakemiono::Refusal>(())
    /// ```
    ///
    /// It is a question to the first edition alone. What the wider edition accepts is accepted by
    /// the first too, which has the same names of functions and locals; so who uses the wider
    /// edition asks there first, and then here:
    ///
    /// ```
    /// use wakemiono::{FunctionIndex, NamePayload, Why};
    ///
    /// let (bytes, function) = ([0x07, 0x04, 0x01, 0x03, 0x01, 0x67], FunctionIndex(3));
    /// if NamePayload::wider(&bytes).function_name(function)?.is_none() {
    ///     let why = NamePayload::new(&bytes).why_function(function)?;
    ///     assert_eq!(why, Why::NoSubsection);
    /// }
    /// # Ok::<(), wakemiono::Refusal>(())
    /// ```
    ///
    /// ```compile_fail,E0599
    /// use wakemiono::{FunctionIndex, NamePayload};
    ///
    /// NamePayload::wider(&[]).why_function(FunctionIndex(3));
    /// ```
    ///
    /// # Errors
    ///
    /// As [`judge`](Self::judge).
    pub fn why_function(&self, function: FunctionIndex) -> Result<Why<FunctionIndex>, Refusal> {
        First::why_function(self.as_bytes(), function.0).why()
    }

    /// Why a local of a function has no name, or where the name stands that it has. Who uses the
    /// wider edition asks as for [`why_function`](Self::why_function).
    ///
    /// ```
    /// use wakemiono::{FunctionIndex, LocalIndex, NamePayload, Why};
    ///
    /// let payload = NamePayload::new(&[0x02, 0x06, 0x01, 0x03, 0x01, 0x00, 0x01, 0x78]);
    /// let why = |function, local| payload.why_local(FunctionIndex(function), LocalIndex(local));
    /// assert_eq!(why(3, 0)?, Why::Named { subsection: 2, position: 0 });
    /// assert_eq!(why(3, 1)?, Why::NoEntry { below: Some(LocalIndex(0)), above: None });
    /// assert_eq!(why(0, 3)?, Why::NoGroup);
    /// # Ok::<(), wakemiono::Refusal>(())
    /// ```
    ///
    /// # Errors
    ///
    /// As [`judge`](Self::judge).
    pub fn why_local(
        &self,
        function: FunctionIndex,
        local: LocalIndex,
    ) -> Result<Why<LocalIndex>, Refusal> {
        First::why_local(self.as_bytes(), function.0, local.0).why()
    }
}

#[cfg(test)]
mod tests {
    use super::*;

    fn function(why: Why<FunctionIndex>) -> String {
        why.to_string()
    }

    fn local(why: Why<LocalIndex>) -> String {
        why.to_string()
    }

    /// An index without an entry, between these.
    fn between<Index: From<u32>>(below: Option<u32>, above: Option<u32>) -> Why<Index> {
        Why::NoEntry {
            below: below.map(Index::from),
            above: above.map(Index::from),
        }
    }

    #[test]
    fn where_a_name_stands_is_said() {
        let (of_function, of_local) = (
            Why::Named {
                subsection: 1,
                position: 7,
            },
            Why::Named {
                subsection: 2,
                position: 0,
            },
        );
        assert_eq!(
            function(of_function),
            "it is entry 7, counted from 0, in the map of function names (subsection 1)"
        );
        assert_eq!(
            local(of_local),
            "it is entry 0, counted from 0, in its function's map of local names (subsection 2)"
        );
    }

    #[test]
    fn what_is_missing_is_said() {
        assert_eq!(
            function(Why::NoSubsection),
            "there are no function names, since the name section has no subsection 1"
        );
        assert_eq!(
            local(Why::NoSubsection),
            "there are no local names, since the name section has no subsection 2"
        );
        assert_eq!(
            local(Why::NoGroup),
            "its function has no local names, since subsection 2 has no group for it"
        );
    }

    #[test]
    fn the_nearest_indices_are_said_if_any() {
        let said = "the map of function names has no entry for it; ";
        assert_eq!(
            function(between(Some(0), Some(3))),
            format!("{said}the nearest below is 0, and the nearest above is 3")
        );
        assert_eq!(
            function(between(Some(u32::MAX - 1), None)),
            format!("{said}the nearest below is 4294967294, and there is none above")
        );
        assert_eq!(
            local(between(None, Some(3))),
            "its function's map of local names has no entry for it; there is none below, and the \
             nearest above is 3"
        );
        assert_eq!(
            function(between(None, None)),
            "the map of function names is empty"
        );
        assert_eq!(
            local(between(None, None)),
            "its function's map of local names is empty"
        );
    }
}
