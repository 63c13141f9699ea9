//! The pending flow cache: calls, the original's answers beside document 01's, and what is done
//! with them.

pub mod account;
pub mod body;
mod branch;
pub mod call;
#[cfg(feature = "live")]
pub mod compare;
pub mod count;
mod counts;
#[cfg(feature = "live")]
pub mod damage;
pub mod document;
mod exhaustive;
mod generator;
#[cfg(feature = "live")]
mod labels;
#[cfg(feature = "live")]
mod layout;
#[cfg(feature = "live")]
mod lent;
pub mod limits;
#[cfg(feature = "live")]
pub mod memory;
#[cfg(feature = "live")]
mod moved;
mod original;
pub mod parts;
pub mod pendlist;
pub mod record;
#[cfg(feature = "live")]
mod redo;
mod rows;
pub mod run;
pub mod stream;

#[cfg(test)]
mod faults;
