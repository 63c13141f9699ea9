//! Document 01's numbers and sizes.

pub const DONE: u32 = 0;
pub const BAD_TEMPLATES: u32 = 1;
pub const BAD_BODIES: u32 = 2;
pub const BAD_ENTRY_SIZE: u32 = 3;
pub const BAD_TOTAL: u32 = 4;
pub const TOO_LONG: u32 = 6;
pub const INVALID: u32 = 7;
pub const NEVER_FITS: u32 = 8;
pub const NO_RECORDS: u32 = 9;
pub const NO_VALUES: u32 = 10;
pub const NO_PAYLOAD: u32 = 11;
pub const TEMPLATE_FULL: u32 = 20;
pub const STILL_OVER: u32 = 21;
pub const FITS_LATER: u32 = 22;
pub const VALUES_EXCEEDED: u32 = 23;
pub const PAYLOAD_EXCEEDED: u32 = 24;

/// The width that means "variable" in the variable reading, and 65,535 bytes in the fixed ones.
pub const VARIABLE: u16 = 65_535;

// What the original does not have.
pub const AREAS_TOO_SMALL: u32 = 5;
pub const NO_CHANCE: u32 = 25;
pub const ROLLBACK_ABOVE_USE: u32 = 26;
pub const NOT_HANDED_OUT: u32 = 27;
#[cfg(feature = "live")]
pub const DAMAGED: u32 = 28;
#[cfg(feature = "live")]
pub const TOO_LARGE: u32 = 12;
#[cfg(feature = "live")]
pub const MAX_BODY: usize = 65_531;
#[cfg(feature = "live")]
pub const MAX_WIDTHS: usize = 65_535;
