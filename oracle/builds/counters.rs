//! What the counted build counts, one set for each thread. The functions that
//! count are called from the text that hooks.rs inserts, and from nowhere else.

use std::cell::Cell;

pub mod branches;
mod causes;
pub mod edge_branches;
pub mod makers;
pub mod passes;

pub use branches::{taken, Branch, Branches};
pub use causes::Cause;
pub use edge_branches::{taken as edges_taken, EdgeBranch, EdgeBranches};

#[derive(Clone, Copy, PartialEq, Debug)]
pub struct Counts {
    /// Lines compared with the point now, and earlier lines looked at in a one-line solve.
    pub probes: u32,
    /// The line at which the 2D pass over the whole list failed, rigidly or not.
    pub failed_line: Option<usize>,
    /// What closed that line's interval.
    pub cause: Option<Cause>,
    /// The penetration at the end of relaxation; none where nothing was relaxed.
    pub penetration: Option<f32>,
    pub inner_solves_begun: u32,
    pub inner_solves_succeeded: u32,
}

const NOTHING_COUNTED: Counts = Counts {
    probes: 0,
    failed_line: None,
    cause: None,
    penetration: None,
    inner_solves_begun: 0,
    inner_solves_succeeded: 0,
};

thread_local! {
    static COUNTS: Cell<Counts> = const { Cell::new(NOTHING_COUNTED) };
}

/// What was counted on this thread since the last reset.
pub fn counts() -> Counts {
    COUNTS.get()
}

pub fn reset() {
    start_counting();
    edge_branches::reset();
    makers::reset();
    passes::reset();
}

fn start_counting() {
    COUNTS.set(NOTHING_COUNTED);
    branches::reset();
    causes::reset();
}

pub fn probe() {
    update(|counts| counts.probes += 1);
}

/// The one-line solve that failed last is that line's.
pub fn failed_line(index: usize) {
    update(|counts| {
        counts.failed_line = Some(index);
        counts.cause = causes::last();
    });
}

pub fn penetration(penetration: f32) {
    update(|counts| counts.penetration = Some(penetration));
    branches::penetration_now(penetration);
}

pub fn inner_solve_begun() {
    update(|counts| counts.inner_solves_begun += 1);
}

pub fn inner_solve_succeeded() {
    update(|counts| counts.inner_solves_succeeded += 1);
}

fn update(change: impl FnOnce(&mut Counts)) {
    let mut counts = COUNTS.get();
    change(&mut counts);
    COUNTS.set(counts);
}
