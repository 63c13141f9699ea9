//! How deep a call writes into the stack: it runs on a stack of its own, full of a pattern. Of a cache
//! with few labels and one with great ones, the deeper.

use crate::both::Both;
use crate::cache_rows::TABLES;
use crate::figures::grouped;
use crate::port;
use crate::shape::Shape;
use std::arch::asm;
use std::hint::black_box;

const SIZE: usize = 1 << 20;
const PATTERN: u8 = 0xA5;

/// What a stack pointer must be a multiple of at a call.
const ALIGNED: usize = 16;

pub fn print() {
    println!("\n### Stack\n");
    println!("| call | bytes of stack |");
    println!("|---|---:|");
    println!("| none (the measuring itself) | {} |", grouped(depth_of(&mut || ())));
    for table in TABLES {
        let depth = [0, 1_000].map(|first_label| {
            let mut both = Both::new(Shape { first_label, ..table.shape(16, 256) });
            depth_of(&mut || _ = both.ours())
        });
        println!("| {} | {} |", table.name, grouped(depth[0].max(depth[1])));
    }
    let body = vec![1; 1_500];
    for (name, function) in [
        ("IPFIX variable", port::IPFIX_VARIABLE),
        ("IPFIX fixed", port::IPFIX_FIXED),
        ("v9 fixed", port::V9_FIXED),
    ] {
        let mut cost = [0; 3];
        let widths = [65_535, 2];
        let mut call =
            || _ = black_box(port::preflight(function, &body, &widths, 65_535, &mut cost));
        println!("| preflight, {name} | {} |", grouped(depth_of(&mut call)));
    }
    let mut budget = [0; 7];
    let mut call = || {
        black_box(port::budget_new(&mut budget, 1_000, 1_000));
        black_box(port::reserve(&mut budget, 8, 80));
        black_box(port::rollback(&mut budget, 0, 0));
    };
    println!("| budget: new, reserve, rollback | {} |", grouped(depth_of(&mut call)));
}

type Run<'a> = &'a mut dyn FnMut();

/// The bytes from the top of the stack to the lowest one that was written.
fn depth_of(run: Run<'_>) -> usize {
    // Once elsewhere, so that nothing is done for the first time.
    run();
    let mut stack = vec![PATTERN; SIZE];
    let base = stack.as_mut_ptr() as usize;
    let top = (base + SIZE) / ALIGNED * ALIGNED;
    on_stack(top, run);
    let stack = black_box(stack);
    let untouched = stack.iter().take_while(|byte| **byte == PATTERN).count();
    top - base - untouched
}

fn on_stack(top: usize, mut run: Run<'_>) {
    extern "C" fn enter(run: &mut Run<'_>) {
        run();
    }
    // SAFETY: the memory below the top is ours and enough; `enter` keeps r12, as C's convention
    // has it, so the stack pointer is what it was afterwards. Nothing unwinds: a run that panics
    // ends the program at `extern "C"`.
    unsafe {
        asm!(
            "mov r12, rsp",
            "mov rsp, {top}",
            "call {enter}",
            "mov rsp, r12",
            top = in(reg) top,
            enter = in(reg) enter as extern "C" fn(&mut Run<'_>),
            in("rdi") &mut run,
            out("r12") _,
            clobber_abi("C"),
        );
    }
}
