//! The table of the decoded-output budget.

use crate::figures::{ratio, time};
use crate::port;
use crate::timing::{Budget, interleaved, time_of};
use oracle::original;
use std::hint::black_box;

/// Pairs of calls in one timed run.
const PAIRS: u64 = 64;

const MOST_VALUES: u64 = 65_536;
const MOST_PAYLOAD: u64 = 4_194_304;

/// What is reserved, from no use, before it is rolled back.
const RESERVED: [(&str, u64, u64, u32); 3] = [
    ("reserve, rollback", 24, 1_440, 0),
    ("reserve refused with 23, rollback", MOST_VALUES + 1, 1_440, 23),
    ("reserve refused with 24, rollback", 24, MOST_PAYLOAD + 1, 24),
];

pub fn print(budget: Budget) {
    println!("\n### budget\n");
    println!("| two calls | ours | Rust | ours / Rust |");
    println!("|---|---:|---:|---:|");
    for (name, values, payload, number) in RESERVED {
        let mut lent = [0; 7];
        port::budget_new(&mut lent, MOST_VALUES, MOST_PAYLOAD);
        let mut held = original::Budget::new(MOST_VALUES as usize, MOST_PAYLOAD as usize);
        let (values_there, payload_there) = (values as usize, payload as usize);
        assert_eq!(port::reserve(&mut lent, values, payload), number);
        assert_eq!(held.reserve(values_there, payload_there), number == 0);
        assert_eq!(port::rollback(&mut lent, 0, 0), 0);
        held.rollback(0, 0);
        let taken = interleaved(
            budget,
            &mut (lent, held),
            &mut [
                &mut |(lent, _)| {
                    timed(|| {
                        black_box(port::reserve(lent, black_box(values), black_box(payload)));
                        black_box(port::rollback(lent, black_box(0), black_box(0)));
                    })
                },
                &mut |(_, held)| {
                    timed(|| {
                        let (values, payload) = (black_box(values_there), black_box(payload_there));
                        black_box(held.reserve(values, payload));
                        held.rollback(black_box(0), black_box(0));
                    })
                },
            ],
        );
        let (ours, rust) = (taken[0].figure(), taken[1].figure());
        println!("| {name} | {} | {} | {} |", time(ours), time(rust), ratio(ours / rust));
    }
}

fn timed(mut pair: impl FnMut()) -> (f64, u64) {
    let (time, ()) = time_of(|| (0..PAIRS).for_each(|_| pair()));
    (time, PAIRS)
}
