//! The plain and the counted build give the same bits on random line lists, and
//! the counts keep to what the definition of the build says of every list.

use super::Outcome;
use crate::builds::{solve_both, Solved};
use crate::line_lists::random_list;
use crate::random::Random;

const SEED: u64 = 1;
const LISTS: usize = 40_000;

/// A check that hardly meets one of the outcomes would say little about it.
const AT_LEAST_OF_EACH: usize = 2_000;

#[derive(Default)]
struct Seen {
    solved: usize,
    relaxed: usize,
    rigid_failures: usize,
    failed_inner_solves: usize,
}

pub fn check() -> Outcome {
    let mut random = Random::new(SEED);
    let mut seen = Seen::default();
    for _ in 0..LISTS {
        let list = random_list(&mut random);
        seen.add(&solve_both(&list)?);
    }
    seen.summary()
}

impl Seen {
    fn add(&mut self, solved: &Solved) {
        let counts = &solved.counts;
        match (solved.answer, counts.failed_line) {
            (Err(_), _) => self.rigid_failures += 1,
            (Ok(_), Some(_)) => self.relaxed += 1,
            (Ok(_), None) => self.solved += 1,
        }
        if counts.inner_solves_succeeded < counts.inner_solves_begun {
            self.failed_inner_solves += 1;
        }
    }

    fn summary(&self) -> Outcome {
        let summary = format!(
            "{LISTS} lists ({} solved, {} relaxed, {} of them with a failed inner solve, {} rigid failures)",
            self.solved, self.relaxed, self.failed_inner_solves, self.rigid_failures,
        );
        if self.solved.min(self.relaxed).min(self.rigid_failures) < AT_LEAST_OF_EACH {
            return Err(format!("too few of one outcome in {summary}"));
        }
        Ok(summary)
    }
}
