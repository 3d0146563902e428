//! The edges that made a line since the last reset, by their left vertices, one list for each thread. Noted from the text
//! that edge_hooks.rs inserts.

use std::cell::RefCell;

thread_local! {
    static NOTED: RefCell<Vec<usize>> = const { RefCell::new(Vec::new()) };
}

/// In the order of the lines.
pub fn noted() -> Vec<usize> {
    NOTED.with_borrow(Vec::clone)
}

pub(super) fn reset() {
    NOTED.with_borrow_mut(Vec::clear);
}

pub fn note(left_index: usize) {
    NOTED.with_borrow_mut(|noted| noted.push(left_index));
}
