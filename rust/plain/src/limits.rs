//! The limits of 01.

pub const MOST_FORMULAS: usize = 4096;
pub const MOST_STATEMENTS: usize = 256;
pub const MOST_STEPS: usize = 16384;
pub const MOST_DEPTH: u16 = 512;
/// "Atoms and principals are numbered 0 to 4,095."
pub const PRINCIPALS: usize = 4096;
