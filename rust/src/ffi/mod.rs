//! The functions of `libnetflow_pending.a` with Rust's types around them: slices, and a `Result`
//! that has document 01's number where a call is refused. All unsafe code is here.
//!
//! What every call below rests on: a slice crosses as its pointer and its length, so that the
//! archive stays within it; `&mut` and `&` keep the areas, the body and the words for answers
//! apart from each other and alive until the call returns; a `*const` is not written. The
//! archive's functions are proved to return for every input; they keep no pointer and do not
//! unwind.

mod budget;
mod cache;
mod framing;
mod functions;

pub use budget::{BudgetWords, limits};
pub use cache::{Areas, nanoseconds, validate_config};
pub use framing::{Reading, preflight};

/// Document 01's number of a refusal.
pub type Number = u32;

fn answered<T>(number: Number, value: T) -> Result<T, Number> {
    if number == 0 { Ok(value) } else { Err(number) }
}
