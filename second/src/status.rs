//! Status words of document 01, and 6282 of document 02.

pub const OK: u16 = 0x9000;
pub const MORE_DATA: u16 = 0x6100;
pub const END_OF_FILE: u16 = 0x6282;
pub const WRONG_CODE: u16 = 0x63C0;
pub const BAD_RESULT: u16 = 0x6400;
pub const WRONG_LENGTH: u16 = 0x6700;
pub const NO_CHAINING: u16 = 0x6884;
pub const WRONG_FILE_KIND: u16 = 0x6981;
pub const NOT_VERIFIED: u16 = 0x6982;
pub const BLOCKED: u16 = 0x6983;
pub const CONDITIONS: u16 = 0x6985;
pub const NO_CURRENT_FILE: u16 = 0x6986;
pub const BAD_DATA: u16 = 0x6A80;
pub const FILE_NOT_FOUND: u16 = 0x6A82;
pub const RECORD_NOT_FOUND: u16 = 0x6A83;
pub const BAD_P1_P2: u16 = 0x6A86;
pub const REFERENCE_NOT_FOUND: u16 = 0x6A88;
pub const BAD_OFFSET: u16 = 0x6B00;
pub const BAD_INSTRUCTION: u16 = 0x6D00;
pub const BAD_CLASS: u16 = 0x6E00;
