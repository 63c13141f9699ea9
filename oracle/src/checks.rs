//! The original's debug assertions, which are made in all builds of this package. A test can leave
//! them out to see what the original does in a build without them.

use std::cell::Cell;

thread_local! {
    static MADE: Cell<bool> = const { Cell::new(true) };
}

pub fn made() -> bool {
    cfg!(debug_assertions) && MADE.get()
}

#[cfg(test)]
pub fn left_out<T>(run: impl FnOnce() -> T) -> T {
    MADE.set(false);
    let answer = run();
    MADE.set(true);
    answer
}
