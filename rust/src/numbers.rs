//! Document 01's numbers that are told apart here.

pub const BAD_TEMPLATES: u32 = 1;
pub const BAD_BODIES: u32 = 2;
pub const BAD_ENTRY_SIZE: u32 = 3;
pub const BAD_TOTAL: u32 = 4;
pub const NEVER_FITS: u32 = 8;
pub const NO_RECORDS: u32 = 9;
pub const NO_VALUES: u32 = 10;
pub const FITS_LATER: u32 = 22;
pub const VALUES_EXCEEDED: u32 = 23;
pub const DAMAGED: u32 = 28;
