//! The refusal words of document 01 by their numbers. No call meets 5 any more
//! since document 02's request (b).

pub const ACCEPTED: u8 = 0;
pub const BAD_SHOP: u8 = 1;
pub const BAD_NUMBER: u8 = 2;
pub const BAD_OPERATION: u8 = 3;
pub const OWN_ECHO: u8 = 4;
pub const CLOCK_BACK: u8 = 5;
pub const SHIFT_FULL: u8 = 6;
pub const HELD_ALREADY: u8 = 7;
pub const NUMBER_CLASH: u8 = 8;
pub const NOT_HERE: u8 = 9;
pub const WEAK: u8 = 10;
pub const SETTLED_ALREADY: u8 = 11;
pub const WAITS: u8 = 12;
pub const NOTHING_TO_UNDO: u8 = 13;
pub const UNDO_FIRST: u8 = 14;
pub const NOTHING_TO_DO: u8 = 15;
pub const CUT_SHORT: u8 = 16;
pub const BAD_LENGTH: u8 = 17;
pub const UNKNOWN_KIND: u8 = 18;
pub const SPARE_SET: u8 = 19;
pub const NO_ROOM: u8 = 20;
pub const BAD_CONTEXT: u8 = 21;

/// How many numbers an answer may have: the refusals and 0.
pub const REFUSALS: usize = 22;
