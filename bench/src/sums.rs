//! One sum over words: the least that a test of all of them can cost.

use std::arch::asm;

/// One addition for each word: the barrier keeps the compiler from adding several at once.
#[inline(never)]
pub fn scalar(words: &[u64]) -> u64 {
    let mut sum = 0_u64;
    for word in words {
        sum = sum.wrapping_add(*word);
        // SAFETY: no instruction.
        unsafe { asm!("/* {0} */", inout(reg) sum, options(pure, nomem, nostack)) }
    }
    sum
}

/// As the compiler does it by itself.
#[inline(never)]
pub fn vectorised(words: &[u64]) -> u64 {
    words.iter().fold(0, |sum, word| sum.wrapping_add(*word))
}
