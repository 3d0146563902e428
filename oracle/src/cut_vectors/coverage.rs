//! What the lists must show at the lines they are cut at.

use glam::Vec2;

use super::{Case, MIDDLE};
use crate::builds::Solved;
use crate::coverage_table;
use crate::list_vectors::judge::MOST_LINES;
use crate::list_vectors::made::SHORT;

type Test = fn(&Case) -> bool;

/// k is the failed line. One row to a line, so that it reads as a table.
#[rustfmt::skip]
const ROWS: &[(&str, Test)] = &[
    ("solving at the end", |c| is_solving(c.end())),
    ("relaxing at the end", |c| is_relaxing(c.end())),
    ("rigid failure at the end", |c| is_rigid_failure(c.end())),
    ("relaxing from the first line of several", |c| is_relaxing(c.end()) && fails_at_first(c)),
    ("relaxing from a line in the middle", |c| is_relaxing(c.end()) && fails_in_the_middle(c)),
    ("relaxing from the last line of several", |c| is_relaxing(c.end()) && fails_at_last(c)),
    ("rigid failure at the first line of several", |c| is_rigid_failure(c.end()) && fails_at_first(c)),
    ("rigid failure at a line in the middle", |c| is_rigid_failure(c.end()) && fails_in_the_middle(c)),
    ("rigid failure at the last line of several", |c| is_rigid_failure(c.end()) && fails_at_last(c)),
    ("solving: each of three lines or more changes the point", |c| is_solving(c.end()) && c.lines() > 2 && all_steps(c, moves)),
    ("solving, then relaxing: each of three lines or more changes the point", |c| is_relaxing(c.end()) && c.failed() > Some(0) && c.lines() > 2 && all_steps(c, moves)),
    ("solving: a line changes nothing but the probes", |c| any_step(c, |before, after| is_solving(after) && !moves(before, after))),
    ("relaxing: three later lines or more, each changes the penetration", |c| c.relaxed_later() > 2 && all_relaxed(c, deepens_or_falls)),
    ("relaxing: a later line changes the penetration", |c| any_relaxed(c, deepens_or_falls)),
    ("relaxing: a later line makes the penetration fall", |c| any_relaxed(c, |before, after| depth(after) < depth(before))),
    ("relaxing: a later line passes", |c| any_relaxed(c, |before, after| begun(before) == begun(after))),
    ("relaxing: a later line's inner solve fails", |c| any_relaxed(c, |before, after| failed_inside(before) < failed_inside(after))),
    ("rigid failure: three lines or more behind it change nothing", |c| is_rigid_failure(c.end()) && c.failed() < c.lines().checked_sub(3)),
    ("rigid count 0, relaxing", |c| c.call.rigid_count == 0 && is_relaxing(c.end())),
    ("rigid count k > 0, relaxing", |c| c.rigid() > 0 && c.failed() == Some(c.rigid())),
    ("rigid count k + 1, rigid failure", |c| c.failed().is_some_and(|k| k + 1 == c.rigid())),
    ("rigid count above the lines, rigid failure", |c| c.rigid() > c.lines() && is_rigid_failure(c.end())),
    ("rigid count 2^32 - 1, rigid failure", |c| c.call.rigid_count == u32::MAX && is_rigid_failure(c.end())),
    ("wish over the limit, so that the start is another point", |c| point(&c.answers[0]) != c.call.wish),
    ("limit 0 or -0", |c| c.call.limit == 0.0),
    ("0 lines", |c| c.lines() == 0),
    ("1 line", |c| c.lines() == 1),
    ("13 to 40 lines", |c| (SHORT + 1..=MIDDLE).contains(&c.lines())),
    ("256 lines, solving", |c| c.is_full() && is_solving(c.end())),
    ("256 lines, relaxing", |c| c.is_full() && is_relaxing(c.end())),
    ("256 lines, rigid failure", |c| c.is_full() && is_rigid_failure(c.end())),
];

/// The table; or the rows that no list shows.
pub fn table(cases: &[Case]) -> Result<String, String> {
    coverage_table::of(
        cases,
        ("Lists", &[("in all", |_| true)]),
        ROWS,
        |test, case| test(case),
    )
}

impl Case {
    fn lines(&self) -> usize {
        self.call.line_count()
    }

    fn rigid(&self) -> usize {
        self.call.rigid_count as usize
    }

    fn is_full(&self) -> bool {
        self.lines() == MOST_LINES
    }

    fn end(&self) -> &Solved {
        &self.answers[self.lines()]
    }

    fn failed(&self) -> Option<usize> {
        self.end().counts.failed_line
    }

    /// How many lines come behind the failed one in relaxation.
    fn relaxed_later(&self) -> usize {
        relaxed_steps(self).count()
    }
}

fn is_solving(solved: &Solved) -> bool {
    solved.counts.failed_line.is_none()
}

fn is_relaxing(solved: &Solved) -> bool {
    solved.counts.penetration.is_some()
}

fn is_rigid_failure(solved: &Solved) -> bool {
    solved.answer.is_err()
}

fn fails_at_first(case: &Case) -> bool {
    case.failed() == Some(0) && case.lines() > 1
}

fn fails_in_the_middle(case: &Case) -> bool {
    case.failed().is_some_and(|k| 0 < k && k + 1 < case.lines())
}

fn fails_at_last(case: &Case) -> bool {
    case.failed()
        .is_some_and(|k| 0 < k && k + 1 == case.lines())
}

/// The answers before and after each line.
fn steps(case: &Case) -> impl Iterator<Item = (&Solved, &Solved)> {
    case.answers.iter().zip(&case.answers[1..])
}

/// Those at which relaxation goes on.
fn relaxed_steps(case: &Case) -> impl Iterator<Item = (&Solved, &Solved)> {
    steps(case).filter(|(before, _)| is_relaxing(before))
}

fn all_steps(case: &Case, test: fn(&Solved, &Solved) -> bool) -> bool {
    steps(case).all(|(before, after)| test(before, after))
}

fn any_step(case: &Case, test: fn(&Solved, &Solved) -> bool) -> bool {
    steps(case).any(|(before, after)| test(before, after))
}

fn all_relaxed(case: &Case, test: fn(&Solved, &Solved) -> bool) -> bool {
    relaxed_steps(case).all(|(before, after)| test(before, after))
}

fn any_relaxed(case: &Case, test: fn(&Solved, &Solved) -> bool) -> bool {
    relaxed_steps(case).any(|(before, after)| test(before, after))
}

fn moves(before: &Solved, after: &Solved) -> bool {
    point(before) != point(after)
}

fn deepens_or_falls(before: &Solved, after: &Solved) -> bool {
    depth(before) != depth(after)
}

fn point(solved: &Solved) -> Vec2 {
    let (Ok(point) | Err(point)) = solved.answer;
    point
}

fn depth(solved: &Solved) -> Option<f32> {
    solved.counts.penetration
}

fn begun(solved: &Solved) -> u32 {
    solved.counts.inner_solves_begun
}

fn failed_inside(solved: &Solved) -> u32 {
    begun(solved) - solved.counts.inner_solves_succeeded
}
