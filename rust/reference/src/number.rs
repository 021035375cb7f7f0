//! The numbers of document 01's table under "Turned back", and of document 02.

pub const CUT_SHORT: u32 = 1;
pub const OVERFULL: u32 = 2;
pub const NOT_ENTERED: u32 = 3;
pub const BAD_MARK: u32 = 4;
pub const NO_SUCH_ITEM: u32 = 5;
pub const MISCOUNTED: u32 = 6;
pub const RANK: u32 = 7;
pub const OVERREACH: u32 = 8;
pub const TWIN: u32 = 9;
pub const LEFT_OVER: u32 = 10;
pub const RULE_LENGTH: u32 = 11;
pub const DEEP: u32 = 12;
pub const NOT_A_RULE: u32 = 13;
pub const KIND: u32 = 14;
pub const CHOICES: u32 = 15;
pub const NO_RULES_FORMULA: u32 = 16;
pub const SHORT_SHEET: u32 = 17;
pub const ORDER: u32 = 18;
pub const PAGE: u32 = 19;
pub const LEFT: u32 = 20;
pub const FULL_HOUSE: u32 = 21;
pub const NOT_OPEN: u32 = 22;
pub const READER: u32 = 23;
