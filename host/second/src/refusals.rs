//! The refusal numbers.

pub const BAD_HEAD: u32 = 1;
pub const BAD_LINE: u32 = 2;
pub const BAD_PATH: u32 = 3;
pub const TOO_MANY_LINES: u32 = 4;
pub const TANGLED: u32 = 5;
pub const REPEATED: u32 = 6;
pub const NO_SUCH_USER: u32 = 7;
pub const BAD_RECORD: u32 = 8;
pub const TOO_MANY_FIELDS: u32 = 9;
pub const TEXT_TOO_LONG: u32 = 10;
pub const BAD_REQUEST: u32 = 11;
pub const LOGIN_FAILED: u32 = 12;
pub const HAS_SESSION: u32 = 13;
pub const NO_SESSION: u32 = 14;
pub const LENT_TOO_SHORT: u32 = 15;
pub const MAY_NOT_WRITE: u32 = 16;
pub const ALLOWANCE_SPENT: u32 = 17;
pub const LOGINS_SPENT: u32 = 18;
