//! The decoded-output budget: calls, the original's answers, and what is done with them.

pub mod call;
mod counts;
mod departure;
mod exhaustive;
pub mod generator;
mod original;
pub mod record;
pub mod rows;
pub mod stream;
