//! Every C call of the library, compared with the second reader on the same bytes.
//!
//! A slice is lent at the very end of mapped memory, so that a read past it cannot pass; what was lent is compared
//! before and after; an output, the state of a stream, a table and its store have guard bytes before them and nothing
//! mapped behind them.
//!
//! A shared table is compared with the second reader's, and both are held to a model, over whole histories of calls, in
//! [`sharing`].

#![deny(missing_docs)]

pub mod accepted;
pub mod code;
pub mod fixtures;
pub mod guarded;
pub mod held;
pub mod library;
pub mod made;
pub mod markers;
pub mod places;
pub mod random;
pub mod sharing;
pub mod spelling;
pub mod tally;
