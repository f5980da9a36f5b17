//! Catches the original's panics without their messages; a panic of the comparison itself is told.
use std::cell::Cell;
use std::panic::{catch_unwind, set_hook, take_hook, AssertUnwindSafe};

thread_local!(static QUIET: Cell<bool> = Cell::new(false));

pub fn start() {
    let told = take_hook();
    set_hook(Box::new(move |panic| {
        if !QUIET.with(Cell::get) {
            told(panic);
        }
    }));
}

/// What the call gives, or nothing if it panics.
pub fn caught<T>(call: impl FnOnce() -> T) -> Option<T> {
    QUIET.with(|quiet| quiet.set(true));
    let given = catch_unwind(AssertUnwindSafe(call));
    QUIET.with(|quiet| quiet.set(false));
    given.ok()
}
