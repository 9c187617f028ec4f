//! The numbers of the paper's first section.

/// Most fields a table has.
pub const FIELDS: usize = 16;
/// Most readings a field has; also the rows of a cell and the bits of a row.
pub const READINGS: usize = 32;
/// 31 December 2099; day 0 is 1 January 2000.
pub const LAST_DAY: u16 = 36_524;
/// Most bytes of a sheet.
pub const SHEET_BYTES: usize = 4_096;
/// The fixed byte of a field that is left free.
pub const FREE: u8 = 255;
/// The lister's budget: no table has more allowed pairs on or above the
/// diagonal, and a round that changes anything strikes at least one.
pub const BUDGET: u64 = 123_392;
