//! After how many calls few templates had few labels, or great ones: for few labels the test behind 28
//! clears less (`FEW_LABELS` of `crates/table`).

use super::layout;
use std::fmt;

const FEW: usize = 32;

#[derive(Default)]
pub struct Labels {
    few: u64,
    great: u64,
    many: u64,
}

impl Labels {
    /// Sees the labels in the words of a cache after a call.
    pub fn add(&mut self, words: &[u64]) {
        let mut labels = layout::labels(words);
        let count = if labels.len() > FEW {
            &mut self.many
        } else if labels.any(|label| label >= FEW as u64) {
            &mut self.great
        } else {
            &mut self.few
        };
        *count += 1;
    }
}

impl fmt::Display for Labels {
    fn fmt(&self, to: &mut fmt::Formatter<'_>) -> fmt::Result {
        let Self { few, great, many } = self;
        write!(to, "  at most {FEW} templates, with labels below {FEW}: after {few} calls, ")?;
        writeln!(to, "with a greater one: after {great}; more templates: after {many}")
    }
}
