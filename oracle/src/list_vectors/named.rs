//! Lists made by hand, each for a row of the coverage table, which it must show: the smallest inputs known
//! to bring out what surprises, and the ends of what is admitted.

use glam::Vec2;

use super::call::Call;
use super::judge::{LINE_REACH, LONGEST, REACH};
use super::{ask, coverage, Case};

pub(super) fn cases() -> Result<Vec<Case>, String> {
    let mut cases = Vec::new();
    for (row, call) in calls() {
        let case = ask(call)?;
        if !coverage::shows(&case, row) {
            return Err(format!("the list made for it does not show: {row}"));
        }
        cases.push(case);
    }
    Ok(cases)
}

/// Four numbers of a line: its point, its direction.
type Numbers = [f32; 4];

const AHEAD: Numbers = [0.0, 1.0, 1.0, 0.0];

/// Each with its row.
pub fn calls() -> Vec<(&'static str, Call)> {
    let mut calls = surprising();
    calls.extend(at_ends());
    calls.extend(faulty());
    calls
}

fn surprising() -> Vec<(&'static str, Call)> {
    vec![
        (
            "one-line solve: zeros of unlike sign at an end",
            call(
                (-1.0, 1.0),
                1.0,
                2,
                &[[1.0, -0.0, -0.6, 0.8], [1.0, -0.0, 0.0, -1.0]],
            ),
        ),
        (
            "point outside the limit by more than 1,000",
            call((0.0, 0.0), 0.0, 0, &[[LINE_REACH, 0.0, 1.0004, 0.0]]),
        ),
        (
            "wish stands though longer than the limit",
            call((1e-23, 0.0), 0.0, 0, &[]),
        ),
        (
            "wish normalized to another length than 1",
            call((2.9e-23, 0.0), 1e-23, 0, &[]),
        ),
        (
            "relaxation: inner solve fails",
            call(
                (0.0, 0.0),
                0.0,
                0,
                &[[-2.0, 2.0, -0.6, 0.8], [0.0, 0.5, 0.8, -0.6]],
            ),
        ),
        (
            "relaxation: penetration below 0",
            call(
                (0.0, 0.0),
                2.0,
                0,
                &[[-0.5277783, 1.9301181, 0.9650591, 0.2638892]],
            ),
        ),
        (
            "relaxation: penetration falls",
            call(
                (0.0, 0.0),
                2.0,
                0,
                &[[3.0, -4.0, 1e-5, -1.0], [0.0, 1.0, 1.0, 1e-5]],
            ),
        ),
        ("limit -0", call((1.0, 0.0), -0.0, 0, &[])),
    ]
}

fn at_ends() -> Vec<(&'static str, Call)> {
    let wish = (0.0, 0.0);
    vec![
        ("limit 1,024", call(wish, LONGEST, 0, &[AHEAD])),
        (
            "6: limit the next f32 above 1,024",
            call(wish, LONGEST.next_up(), 0, &[AHEAD]),
        ),
        (
            "6: limit the next f32 below 0",
            call(wish, -f32::from_bits(1), 0, &[AHEAD]),
        ),
        (
            "wish component of 65,536",
            call((REACH, 0.0), 1.0, 0, &[AHEAD]),
        ),
        (
            "6: wish the next f32 above 65,536",
            call((REACH.next_up(), 0.0), 1.0, 0, &[AHEAD]),
        ),
        (
            "line point component of 268,435,456",
            call(wish, 1.0, 0, &[[0.0, -LINE_REACH, 1.0, 0.0]]),
        ),
        (
            "6: line point the next f32 above 268,435,456",
            call(wish, 1.0, 0, &[[0.0, -LINE_REACH.next_up(), 1.0, 0.0]]),
        ),
        ("256 lines", call(wish, 2.0, 0, &[AHEAD; 256])),
        ("4: 257 lines", call(wish, 2.0, 0, &[AHEAD; 257])),
    ]
}

fn faulty() -> Vec<(&'static str, Call)> {
    let (wish, limit) = ((0.0, 0.0), 1.0);
    let not_a_number = [f32::NAN; 4];
    vec![
        (
            "4: 257 lines, all NaN",
            call(wish, limit, 0, &[not_a_number; 257]),
        ),
        (
            "2: 1,201 numbers, all NaN",
            Call {
                numbers: vec![f32::NAN; 1201],
                ..call(wish, limit, 0, &[])
            },
        ),
        (
            "7 told before a later line's 6",
            call(
                wish,
                limit,
                0,
                &[[0.0, 0.0, 1.0, 1.0], [f32::NAN, 0.0, 1.0, 0.0]],
            ),
        ),
        (
            "6 told before 7",
            call(wish, limit, 0, &[[0.0, f32::NAN, 1.0, 1.0]]),
        ),
        (
            "7: squared length infinite",
            call(wish, limit, 0, &[[0.0, 0.0, 1e30, 0.0]]),
        ),
        (
            "6: direction a NaN",
            call(wish, limit, 0, &[[0.0, 0.0, f32::NAN, 0.0]]),
        ),
        (
            "6: direction infinite",
            call(wish, limit, 0, &[[0.0, 0.0, f32::INFINITY, 0.0]]),
        ),
    ]
}

fn call(wish: (f32, f32), limit: f32, rigid_count: u32, lines: &[Numbers]) -> Call {
    Call {
        wish: Vec2::new(wish.0, wish.1),
        limit,
        rigid_count,
        numbers: lines.concat(),
    }
}
