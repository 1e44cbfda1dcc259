//! The numbers a caller can get in place of an answer.

/// The step byte is over 63.
pub const STEP_BYTE: u8 = 1;
/// More than one line differs from the present ones.
pub const LINES_DIFFER: u8 = 2;
/// RST or FUS changes in programming.
pub const CHANGE_IN_PROGRAMMING: u8 = 3;
/// CLK falls in programming with PGM high.
pub const CLK_FALLS_UNDER_PGM: u8 = 4;
/// RST falls with CLK high.
pub const RST_FALLS_UNDER_CLK: u8 = 5;
/// PGM rises with CLK high.
pub const PGM_RISES_UNDER_CLK: u8 = 6;
/// VCC rises with CLK or PGM high.
pub const VCC_RISES: u8 = 7;
/// The volatile half is made up.
pub const STATE: u8 = 9;
/// The memory buffer isn't 174 bytes.
pub const MEMORY: u8 = 10;
/// The file is under 179 bytes.
pub const FILE_SHORT: u8 = 11;
/// The file's first count isn't 174.
pub const FIRST_COUNT: u8 = 12;
/// The file's second count isn't 1.
pub const SECOND_COUNT: u8 = 13;
/// The fuse byte is over 7.
pub const FUSES: u8 = 14;
/// The session is under 181 bytes.
pub const SESSION_SHORT: u8 = 15;
/// The session's step count is over 4,096.
pub const STEP_COUNT: u8 = 16;
/// The file's length differs from its counts.
pub const FILE_LENGTH: u8 = 17;
/// The run is over 4,096 steps.
pub const RUN_LONG: u8 = 18;
/// The answer buffer is shorter than the steps.
pub const ANSWERS_SHORT: u8 = 19;
/// The walk is over 1519.
pub const WALK: u8 = 21;
/// The step buffer is too small.
pub const BUFFER: u8 = 22;
/// The byte of attempts holds no one.
pub const NO_TRY: u8 = 23;
