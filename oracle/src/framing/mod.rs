//! Framing and cost of one body: cases, the original's answers, and what is done with them.

pub mod answer;
mod bodies;
pub mod case;
mod case_list;
mod families;
pub mod generator;
pub mod record;

#[cfg(feature = "live")]
pub mod compare;
#[cfg(feature = "live")]
mod exhaustive;
#[cfg(feature = "live")]
mod giants;
