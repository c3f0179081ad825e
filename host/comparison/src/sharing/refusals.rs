//! The numbers that calls on a shared table refuse with, beside the payload's own.

/// A lent buffer is too short.
pub const OUTPUT_TOO_SHORT: u32 = 13;
/// No such customer.
pub const NO_CUSTOMER: u32 = 23;
/// The hold is not open, or there is none of that number.
pub const NOT_OPEN: u32 = 24;
/// All holds of the customer are in use.
pub const ALL_HOLDS_OPEN: u32 = 25;
/// The payload is not stored, and no run of free blocks is long enough.
pub const NO_ROOM: u32 = 26;
/// A needed block's check is wrong, or a payload is no longer accepted.
pub const DAMAGED: u32 = 27;
/// The store is not the one of the start.
pub const OTHER_STORE: u32 = 30;
