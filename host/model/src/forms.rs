//! The numbers of the forms: their places in the table of words.

pub const WHILE_ONE: u8 = 0;
pub const WHILE_PAIR: u8 = 1;
pub const WHILE_COUNTER: u8 = 2;
pub const SATURATING: u8 = 3;
pub const INC_DEC: u8 = 4;
pub const CNTP: u8 = 5;
pub const CNTP_COUNTER: u8 = 6;
pub const PNEXT: u8 = 7;
pub const PFIRST: u8 = 8;
pub const PTEST: u8 = 9;
pub const PFALSE: u8 = 10;
pub const LOGIC: u8 = 11;
pub const SETFFR: u8 = 12;
pub const WRFFR: u8 = 13;
pub const RDFFR: u8 = 14;
pub const RDFFR_PG: u8 = 15;
pub const RDFFRS_PG: u8 = 16;
