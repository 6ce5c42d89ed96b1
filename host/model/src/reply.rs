//! "Numbers of the replies".

pub const DONE: u8 = 0;
pub const FOREIGN_WORD: u8 = 1;
pub const LEVEL_TOO_LOW: u8 = 2;
pub const ACCESS_OFF: u8 = 3;
pub const ILLEGAL_STATE: u8 = 4;
pub const IMAGE_CUT: u8 = 5;
pub const NOT_ALLOWED: u8 = 6;
pub const TRAILING_BYTES: u8 = 7;
pub const BUFFER_TOO_SMALL: u8 = 8;
// 9, a field past its range or SEL with S = 1, is the None of `encode`.
pub const BAD_WALK_REGISTERS: u8 = 10;
pub const LIST_TOO_SHORT: u8 = 11;
pub const BUDGET_SPENT: u8 = 12;
pub const UNSUPPORTED_FORM: u8 = 13; // request K4
pub const NOT_MONOTONIC: u8 = 14; // request K5
pub const NOT_OWNED: u8 = 15; // request K7
