//! The passes over a scene, one set for each thread, and whether its neighbour lines come ready made. Called from the
//! text that scene_hooks.rs inserts.

use std::cell::{Cell, RefCell};

use crate::branches::{self, Branches};
use crate::Counts;

/// What one pass counted, and the branches of its solve.
pub type Pass = (Counts, Branches);

thread_local! {
    static READY_MADE: Cell<bool> = const { Cell::new(false) };
    static BEFORE: RefCell<Vec<Pass>> = const { RefCell::new(Vec::new()) };
}

/// Whether agents handed in as neighbours stand for lines.
pub fn take_lines_ready_made(ready_made: bool) {
    READY_MADE.set(ready_made);
}

pub fn are_lines_ready_made() -> bool {
    READY_MADE.get()
}

/// What was counted before is put away: nothing before the first pass, the first pass before the second.
pub fn begin() {
    BEFORE.with_borrow_mut(|before| before.push((crate::counts(), branches::taken())));
    crate::start_counting();
}

/// The passes that were begun since the last reset, in order.
pub fn passes() -> Vec<Pass> {
    let mut passes = BEFORE.with_borrow(Vec::clone);
    passes.push((crate::counts(), branches::taken()));
    passes.remove(0);
    passes
}

pub(super) fn reset() {
    BEFORE.with_borrow_mut(Vec::clear);
}
