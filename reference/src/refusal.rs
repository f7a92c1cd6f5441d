//! The refusals by their numbers.

/// Stands where a refusal's number would, when nothing was refused.
pub const GRANTED: u8 = 0;

pub const SHORT_IMAGE: u8 = 1;
pub const EDITION: u8 = 2;
pub const SIZES: u8 = 3;
pub const DISTANCES: u8 = 4;
pub const CAPACITY: u8 = 5;
pub const RELATION: u8 = 6;
pub const REPEATED_RELATION: u8 = 7;
pub const SHORT_OUTPUT: u8 = 8;
pub const RECORDS: u8 = 9;
pub const CONTEXT_NUMBER: u8 = 10;
pub const STEP_LIMIT: u8 = 11;
pub const TEMPORARY_TOKEN: u8 = 12;
pub const NOTHING_TO_UNDO: u8 = 13;
pub const ALREADY_OFF: u8 = 14;
pub const NOT_RAISED: u8 = 15;
