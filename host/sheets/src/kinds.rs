//! The kinds of records.

pub const CLASS: usize = 1;
pub const IMPLEMENTS: usize = 2;
pub const FIELD: usize = 3;
pub const LOCAL: usize = 4;
pub const USES: usize = 5;
pub const BUILDS: usize = 6;
pub const MEMBER: usize = 7;
pub const REFERS: usize = 8;
