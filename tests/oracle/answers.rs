//! The numbers of the answers, and the lengths of the buffers that are the same for every plan.

pub const DONE: usize = 0;
pub const YES: usize = 0;
pub const NO: usize = 1;

pub const RESTORED: usize = 0;
pub const STUCK: usize = 1;
pub const CLASH: usize = 2;
pub const WHOLE: usize = 3;
pub const FILLED: usize = 4;
pub const TIED: usize = 5;
pub const RAISED: usize = 6;
pub const BLOCKED: usize = 7;
pub const TOP: usize = 8;

pub const UNKNOWN_PLAN: usize = 10;
pub const WRONG_LENGTH: usize = 11;
pub const MARK_OUTSIDE: usize = 12;
pub const NOT_BELOW_Q: usize = 13;
pub const ROW_OUTSIDE: usize = 14;
pub const LEVEL_OUTSIDE: usize = 15;
pub const NO_CODEWORD: usize = 16;
pub const FILE_LENGTH: usize = 20;
pub const HEADER: usize = 21;
pub const BYTE_UNDER_MARK: usize = 22;

pub const BENCH_LENGTH: usize = 838;
pub const REPORT_LENGTH: usize = 8;
pub const TEXT_LENGTH: usize = 640;
pub const COUNT_LENGTH: usize = 2;

/// The places of a Clash, as the report numbers them.
pub const IN_A_ROW: u8 = 1;
pub const ACROSS: u8 = 2;
