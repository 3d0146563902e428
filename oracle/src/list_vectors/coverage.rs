//! What the lists must show: a table of rows, each with how many lists show it. No row may be 0.

use counters::{Branch, Cause};
use glam::Vec2;

use super::call::Call;
use super::judge::{BAND_HIGH, BAND_LOW, LINE_REACH, LONGEST, REACH};
use super::{Case, Outcome};
use crate::builds::Solved;
use crate::coverage_table;

enum Test {
    /// The counted build took the branch.
    Took(Branch),
    Solved(fn(&Call, &Solved) -> bool),
    /// Told the first number, though there was the second fault as well.
    Before(u32, u32),
    /// The number was told, and the call is of this kind.
    Refused(u32, fn(&Call) -> bool),
}

use Test::{Before, Refused, Solved as Of, Took};

/// k is the failed line. One row to a line, so that it reads as a table.
#[rustfmt::skip]
const ROWS: &[(&str, Test)] = &[
    ("solving", Of(|_, s| s.counts.failed_line.is_none())),
    ("relaxing", Of(|_, s| s.counts.penetration.is_some())),
    ("rigid failure", Of(|_, s| s.answer.is_err())),
    ("0 lines", Of(|c, _| c.line_count() == 0)),
    ("1 line", Of(|c, _| c.line_count() == 1)),
    ("255 lines", Of(|c, _| c.line_count() == 255)),
    ("256 lines", Of(|c, _| c.line_count() == 256)),
    ("256 lines, relaxing", Of(|c, s| c.line_count() == 256 && s.counts.penetration.is_some())),
    ("rigid count 0, relaxing", Of(|c, s| c.rigid_count == 0 && s.counts.penetration.is_some())),
    ("rigid count k > 0, relaxing", Of(|c, s| c.rigid_count > 0 && fails_at(s, c.rigid_count.into()))),
    ("rigid count k + 1, rigid failure", Of(|c, s| fails_at(s, i64::from(c.rigid_count) - 1))),
    ("rigid count above the lines", Of(|c, _| c.rigid_count as usize > c.line_count())),
    ("rigid count 2^32 - 1, rigid failure", Of(|c, s| c.rigid_count == u32::MAX && s.answer.is_err())),
    ("one-line solve: misses the circle", Took(Branch::OutsideCircle)),
    ("one-line solve: discriminant exactly 0", Took(Branch::TouchesCircle)),
    ("one-line solve: parallel line, numerator < 0, fails", Took(Branch::ParallelFails)),
    ("one-line solve: parallel line skipped", Took(Branch::ParallelSkipped)),
    ("one-line solve: determinant exactly 0.00001", Took(Branch::ParallelAtTolerance)),
    ("one-line solve: determinant the next f32 above", Took(Branch::JustNotParallel)),
    ("one-line solve: right end capped", Took(Branch::RightCapped)),
    ("one-line solve: left end raised", Took(Branch::LeftRaised)),
    ("one-line solve: ends crossed, fails", Took(Branch::Crossed)),
    ("one-line solve: zeros of unlike sign at an end", Took(Branch::UnlikeZeros)),
    ("failed line: the circle", Of(|_, s| s.counts.cause == Some(Cause::Circle))),
    ("failed line: a parallel line that is not the first", Of(|_, s| matches!(s.counts.cause, Some(Cause::Parallel(1..))))),
    ("failed line: ends crossed at a line that is not the first", Of(|_, s| matches!(s.counts.cause, Some(Cause::Crossing(1..))))),
    ("failed line: the circle, and a later inner solve fails", Of(|_, s| s.counts.cause == Some(Cause::Circle) && inner_solve_fails(s))),
    ("failed line: an earlier line, and a later inner solve fails", Of(|_, s| s.counts.cause != Some(Cause::Circle) && inner_solve_fails(s))),
    ("wish clamped to the left end", Took(Branch::ClampedLeft)),
    ("wish clamped to the right end", Took(Branch::ClampedRight)),
    ("wish between the ends", Took(Branch::NotClamped)),
    ("direction takes the right end", Took(Branch::DirectionRight)),
    ("direction takes the left end", Took(Branch::DirectionLeft)),
    ("2D pass: line met", Took(Branch::Met)),
    ("2D pass: determinant exactly 0, solved again", Took(Branch::ExactlyZero)),
    ("inner 2D pass: determinant exactly 0, solved again", Took(Branch::ExactlyZeroInside)),
    ("relaxation: line passed over", Took(Branch::PassedOver)),
    ("relaxation: passed over with the very penetration", Took(Branch::PassedOverExactly)),
    ("relaxation: inner solve succeeds", Of(|_, s| s.counts.inner_solves_succeeded > 0)),
    ("relaxation: inner solve fails", Of(|_, s| inner_solve_fails(s))),
    ("relaxation: penetration below 0", Of(|_, s| s.counts.penetration.is_some_and(|depth| depth < 0.0))),
    ("relaxation: penetration falls", Took(Branch::PenetrationFalls)),
    ("tightened line skipped", Took(Branch::TightenedSkipped)),
    ("tightened line through the midpoint", Took(Branch::TightenedMidpoint)),
    ("tightened line through the intersection", Took(Branch::TightenedIntersection)),
    ("tightened line, determinant exactly 0.00001", Took(Branch::TightenedAtTolerance)),
    ("wish over the limit", Of(|c, _| squared(c) > c.limit * c.limit)),
    ("wish under the limit", Of(|c, _| squared(c) < c.limit * c.limit)),
    ("wish just as long as a limit above 0", Of(|c, _| squared(c) == c.limit * c.limit && squared(c) > 0.0)),
    ("wish over the limit, but not its rounded length", Of(|c, _| squared(c) > c.limit * c.limit && squared(c).sqrt() <= c.limit)),
    ("wish stands though longer than the limit", Of(|c, _| squared(c) == 0.0 && length(c.wish) > f64::from(c.limit))),
    ("wish normalized to another length than 1", Of(|c, _| normalized_off(c))),
    ("point outside the limit by more than 1,000", Of(|c, s| length(point(s)) > f64::from(c.limit) + 1000.0)),
    ("limit 0", Of(|c, _| c.limit == 0.0)),
    ("limit -0", Of(|c, _| is_minus_zero(c.limit))),
    ("limit 1,024", Of(|c, _| c.limit == LONGEST)),
    ("wish component of 65,536", Of(|c, _| any(c.wish, |x| x.abs() == REACH))),
    ("line point component of 268,435,456", Of(|c, _| c.lines().any(|(p, _)| any(p, |x| x.abs() == LINE_REACH)))),
    ("direction at the low end of its band", Of(|c, _| c.lines().any(|(_, d)| d.dot(d) == BAND_LOW))),
    ("direction at the high end of its band", Of(|c, _| c.lines().any(|(_, d)| d.dot(d) == BAND_HIGH))),
    ("subnormal limit", Of(|c, _| c.limit.is_subnormal())),
    ("subnormal wish component", Of(|c, _| any(c.wish, f32::is_subnormal))),
    ("subnormal line point component", Of(|c, _| c.lines().any(|(p, _)| any(p, f32::is_subnormal)))),
    ("subnormal direction component", Of(|c, _| c.lines().any(|(_, d)| any(d, f32::is_subnormal)))),
    ("-0 in the wish", Of(|c, _| any(c.wish, is_minus_zero))),
    ("-0 in a line point", Of(|c, _| c.lines().any(|(p, _)| any(p, is_minus_zero)))),
    ("-0 in a direction", Of(|c, _| c.lines().any(|(_, d)| any(d, is_minus_zero)))),
    ("-0 in the point", Of(|_, s| any(point(s), is_minus_zero))),
    ("+0 in the point", Of(|_, s| any(point(s), |x| x.to_bits() == 0))),
    ("penetration of -0 or +0", Of(|_, s| s.counts.penetration == Some(0.0))),
    ("2: numbers left over", Refused(2, |_| true)),
    ("2: 1,201 numbers, all NaN", Refused(2, |c| c.numbers.len() == 1201 && c.numbers.iter().all(|x| x.is_nan()))),
    ("4: too many lines", Refused(4, |_| true)),
    ("4: 257 lines", Refused(4, |c| c.line_count() == 257)),
    ("4: 257 lines, all NaN", Refused(4, |c| c.line_count() == 257 && c.numbers.iter().all(|x| x.is_nan()))),
    ("6: a number not finite or out of range", Refused(6, |_| true)),
    ("6: wish a NaN", Refused(6, |c| any(c.wish, f32::is_nan))),
    ("6: wish the next f32 above 65,536", Refused(6, |c| any(c.wish, |x| x.abs() == REACH.next_up()))),
    ("6: limit the next f32 above 1,024", Refused(6, |c| c.limit == LONGEST.next_up())),
    ("6: limit the next f32 below 0", Refused(6, |c| c.limit == -f32::from_bits(1))),
    ("6: line point the next f32 above 268,435,456", Refused(6, |c| c.lines().any(|(p, _)| any(p, |x| x.abs() == LINE_REACH.next_up())))),
    ("6: line point a NaN", Refused(6, |c| c.lines().any(|(p, _)| any(p, f32::is_nan)))),
    ("6: direction a NaN", Refused(6, |c| c.lines().any(|(_, d)| any(d, f32::is_nan)))),
    ("6: direction infinite", Refused(6, |c| c.lines().any(|(_, d)| any(d, f32::is_infinite)))),
    ("7: direction outside its band", Refused(7, |_| true)),
    ("7: one f32 below the band", Refused(7, |c| c.lines().any(|(_, d)| d.dot(d) == BAND_LOW.next_down()))),
    ("7: one f32 above the band", Refused(7, |c| c.lines().any(|(_, d)| d.dot(d) == BAND_HIGH.next_up()))),
    ("7: squared length infinite", Refused(7, |c| c.lines().any(|(_, d)| d.dot(d).is_infinite()))),
    ("2 told before 4", Before(2, 4)),
    ("2 told before 6", Before(2, 6)),
    ("2 told before 7", Before(2, 7)),
    ("4 told before 6", Before(4, 6)),
    ("4 told before 7", Before(4, 7)),
    ("6 told before 7", Before(6, 7)),
    ("7 told before a later line's 6", Before(7, 6)),
];

/// The table; or the rows that no list shows.
pub fn table(cases: &[Case]) -> Result<String, String> {
    coverage_table::of(cases, ("Lists", &[("in all", |_| true)]), ROWS, passes)
}

/// Whether the case is one of those that the row counts.
pub fn shows(case: &Case, row: &str) -> bool {
    ROWS.iter()
        .any(|(name, test)| *name == row && passes(test, case))
}

fn passes(test: &Test, case: &Case) -> bool {
    match (test, &case.outcome) {
        (Took(branch), Outcome::Solved(solved)) => solved.branches.took(*branch),
        (Of(test), Outcome::Solved(solved)) => test(&case.call, solved),
        (Before(told, other), Outcome::Refused(faults)) => {
            faults[0] == *told && faults.contains(other)
        }
        (Refused(told, test), Outcome::Refused(faults)) => faults[0] == *told && test(&case.call),
        _ => false,
    }
}

fn fails_at(solved: &Solved, line: i64) -> bool {
    solved.counts.failed_line.is_some_and(|k| k as i64 == line)
}

fn inner_solve_fails(solved: &Solved) -> bool {
    solved.counts.inner_solves_succeeded < solved.counts.inner_solves_begun
}

fn point(solved: &Solved) -> Vec2 {
    let (Ok(point) | Err(point)) = solved.answer;
    point
}

/// The wish's squared length, as the solver computes it.
fn squared(call: &Call) -> f32 {
    call.wish.length_squared()
}

/// Without the overflow or underflow of f32.
fn length(vector: Vec2) -> f64 {
    let (x, y) = (f64::from(vector.x), f64::from(vector.y));
    (x * x + y * y).sqrt()
}

fn normalized_off(call: &Call) -> bool {
    squared(call) > call.limit * call.limit && (length(call.wish.normalize()) - 1.0).abs() > 0.01
}

fn any(vector: Vec2, test: fn(f32) -> bool) -> bool {
    test(vector.x) || test(vector.y)
}

fn is_minus_zero(number: f32) -> bool {
    number.to_bits() == (-0.0f32).to_bits()
}
