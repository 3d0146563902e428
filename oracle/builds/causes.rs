//! What closed the interval of the one-line solve that failed last, one note for each thread. branches.rs tells
//! of each test; the earlier lines of a solve are counted from its circle on.

use std::cell::Cell;

#[derive(Clone, Copy, PartialEq, Debug)]
pub enum Cause {
    /// The line does not meet the circle of the limit.
    Circle,
    /// The earlier line at this index is parallel, and the line lies on its wrong side.
    Parallel(usize),
    /// The earlier line at this index made the interval's ends cross.
    Crossing(usize),
}

thread_local! {
    static LOOKED_AT: Cell<usize> = const { Cell::new(0) };
    static LAST: Cell<Option<Cause>> = const { Cell::new(None) };
}

pub fn last() -> Option<Cause> {
    LAST.get()
}

pub(super) fn reset() {
    LOOKED_AT.set(0);
    LAST.set(None);
}

/// A one-line solve begins with its circle.
pub(super) fn circle(fails: bool) {
    LOOKED_AT.set(0);
    note_if(fails, Cause::Circle);
}

/// The next earlier line is looked at.
pub(super) fn earlier_line(fails: bool) {
    let index = LOOKED_AT.get();
    LOOKED_AT.set(index + 1);
    note_if(fails, Cause::Parallel(index));
}

/// The earlier line that was looked at last has cut an end.
pub(super) fn ends(fail: bool) {
    note_if(fail, Cause::Crossing(LOOKED_AT.get() - 1));
}

fn note_if(fails: bool, cause: Cause) {
    if fails {
        LAST.set(Some(cause));
    }
}
