//! Encounters made by hand, each for a row of the coverage table, which it must show: the bench cases, the smallest
//! inputs known to bring out what surprises, and calls that are refused before any edge.

use glam::Vec2;

use super::call::{Call, CLOSED, OPEN};
use super::judge::SHORTEST_HORIZON;
use super::{ask, coverage, Case};
use crate::encounters::Encounter;
use crate::list_vectors::judge::{LONGEST, REACH};

pub fn cases() -> Result<Vec<Case>, String> {
    let mut cases = Vec::new();
    for (row, call) in calls() {
        let case = ask(call)?;
        if !coverage::shows(&case, row) {
            return Err(format!("the encounter made for it does not show: {row}"));
        }
        cases.push(case);
    }
    Ok(cases)
}

type Pair = (f32, f32);

fn calls() -> Vec<(&'static str, Call)> {
    let mut calls = bench();
    calls.extend(surprising());
    calls.extend(faulty());
    calls.extend(doubled());
    calls
}

/// Where 14 stands among the faults, and what is no pair.
fn doubled() -> Vec<(&'static str, Call)> {
    let (here, there, beside) = ((0.0, 1.0), (1.0, 1.0), (0.0, 2.0));
    let numbers = |kind: u32, count: u64, numbers: &[f32]| Call {
        numbers: numbers.to_vec(),
        count,
        ..at_rest(kind, &[], 0.5)
    };
    vec![
        (
            "14: a vertex is the one before it again",
            at_rest(OPEN, &[here, here], 0.5),
        ),
        (
            "14: a vertex is the one before it again",
            at_rest(OPEN, &[here, there, there], 0.5),
        ),
        (
            "14: the closing pair alone",
            at_rest(CLOSED, &[here, there, (-0.0, 1.0)], 0.5),
        ),
        (
            "14 told before 6: the vertex behind it",
            numbers(OPEN, 3, &[0.0, 1.0, 0.0, 1.0, f32::NAN]),
        ),
        (
            "14 told before 2: the vertex behind it is missing",
            numbers(OPEN, 3, &[0.0, 1.0, 0.0, 1.0]),
        ),
        (
            "14 told before 2: a number left over",
            numbers(CLOSED, 1, &[0.0, 1.0, 0.0]),
        ),
        (
            "6 told before 14: in the second vertex of a pair",
            numbers(OPEN, 2, &[0.0, 1.0, 0.0, f32::NAN]),
        ),
        (
            "2 told before 14: the second vertex of a pair is cut short",
            numbers(OPEN, 2, &[0.0, 1.0, 0.0]),
        ),
        (
            "neighbouring vertices of equal x",
            at_rest(OPEN, &[here, beside], 0.5),
        ),
        (
            "neighbouring vertices of equal y",
            at_rest(CLOSED, &[here, there, beside], 0.5),
        ),
        (
            "neighbouring vertices one f32 apart",
            at_rest(OPEN, &[here, (0.0, 1.0f32.next_up())], 0.5),
        ),
        (
            "a vertex again, with others between",
            at_rest(CLOSED, &[here, there, here, beside], 0.5),
        ),
        (
            "open, the first vertex again at the end",
            at_rest(OPEN, &[here, there, beside, here], 0.5),
        ),
    ]
}

fn bench() -> Vec<(&'static str, Call)> {
    let (left, right) = ((-1.0, 1.0), (1.0, 1.0));
    vec![
        ("P11: margin 2", at_rest(OPEN, &[left, right], 2.0)),
        ("P11: margin 0.5", at_rest(OPEN, &[left, right], 0.5)),
        (
            "P11: vertices exchanged",
            at_rest(OPEN, &[right, left], 2.0),
        ),
        (
            "P11: vertices exchanged",
            at_rest(OPEN, &[right, left], 0.5),
        ),
        ("P12: vertex (5,0), 14", at_rest(CLOSED, &[(5.0, 0.0)], 1.0)),
        (
            "P12: vertex (0.5,0), 14",
            at_rest(CLOSED, &[(0.5, 0.0)], 1.0),
        ),
    ]
}

fn surprising() -> Vec<(&'static str, Call)> {
    let twice = [(2.0, -1.0), (2.0, -1.0), (-1.0, 0.0), (-1.0, 0.0)];
    let (near, far) = (1e-22, 2e-22);
    vec![
        (
            "9: vertices apart, the right one just inside the margin",
            Call {
                velocity: Vec2::new(0.08913708, -0.7886338),
                ..at_rest(
                    OPEN,
                    &[(-1.1982944, -0.79721916), (-0.94096375, 0.23468599)],
                    0.9697888,
                )
            },
        ),
        (
            "14: where the cart moves, and the Rust's lines are admitted",
            Call {
                velocity: Vec2::new(3.0, 4.0),
                horizon: 2.0,
                ..at_rest(CLOSED, &twice, 2.0)
            },
        ),
        (
            "14: where it rests, and one is not",
            Call {
                horizon: 2.0,
                ..at_rest(CLOSED, &twice, 2.0)
            },
        ),
        (
            "14: closed, 1 vertex",
            at_rest(CLOSED, &[(3.0, 4.0)], 5.0),
        ),
        (
            "14: closed, 1 vertex",
            at_rest(CLOSED, &[(1e-23, 0.0)], 0.0),
        ),
        (
            "coordinates near 1e-22",
            at_rest(OPEN, &[(-near, far), (near, far)], 0.0),
        ),
        (
            "14: but for the sign of a zero",
            at_rest(OPEN, &[(-1.0, 1.0), (0.0, 1.0), (-0.0, 1.0)], 0.5),
        ),
        ("closed, 0 vertices", at_rest(CLOSED, &[], 0.5)),
        ("open, 1 vertex", at_rest(OPEN, &[(0.0, 1.0)], 2.0)),
    ]
}

fn faulty() -> Vec<(&'static str, Call)> {
    let edge = [(-1.0, 1.0), (1.0, 1.0)];
    let many = [(0.0, 1.0); 65];
    let fine = || at_rest(OPEN, &edge, 2.0);
    vec![
        ("3: kind 0", at_rest(0, &edge, 2.0)),
        ("3: kind 3", at_rest(3, &edge, 2.0)),
        ("3: kind 255", at_rest(255, &edge, 2.0)),
        ("3 told before 4", at_rest(3, &many, 2.0)),
        ("4: 65 vertices", at_rest(CLOSED, &many, 2.0)),
        ("4: 65 vertices", at_rest(OPEN, &many, 2.0)),
        (
            "4: a count of 2^64 - 1",
            Call {
                count: u64::MAX,
                ..fine()
            },
        ),
        (
            "4 told before 2",
            Call {
                count: 65,
                ..fine()
            },
        ),
        ("5: open, no vertices", at_rest(OPEN, &[], 2.0)),
        (
            "5 told before 2",
            Call {
                count: 0,
                ..fine()
            },
        ),
        ("2: one vertex missing", Call { count: 3, ..fine() }),
        (
            "2: one number missing",
            Call {
                numbers: vec![-1.0, 1.0, 1.0],
                ..fine()
            },
        ),
        (
            "2: one number left over",
            Call {
                numbers: vec![-1.0, 1.0, 1.0, 1.0, 0.0],
                ..fine()
            },
        ),
        ("2: a vertex left over", Call { count: 1, ..fine() }),
        (
            "2: closed, no vertices, one number left over",
            Call {
                kind: CLOSED,
                numbers: vec![0.0],
                count: 0,
                ..fine()
            },
        ),
        (
            "2 told before 6: a number left over is not looked at",
            Call {
                numbers: vec![-1.0, 1.0, 1.0, 1.0, f32::NAN],
                ..fine()
            },
        ),
        (
            "6 told before 2: a number left over",
            Call {
                numbers: vec![-1.0, 1.0, 1.0, f32::INFINITY, 0.0],
                ..fine()
            },
        ),
        (
            "6 told before 2: the vertex after it is missing",
            Call {
                numbers: vec![-1.0, f32::NAN],
                ..fine()
            },
        ),
        (
            "6: the second component of a vertex",
            Call {
                numbers: vec![-1.0, 1.0, 1.0, REACH.next_up()],
                ..fine()
            },
        ),
        (
            "6: horizon 2,048, P11's wall",
            Call {
                horizon: 2048.0,
                ..fine()
            },
        ),
        (
            "6: horizon below 1/1,024",
            Call {
                horizon: SHORTEST_HORIZON.next_down(),
                ..fine()
            },
        ),
        (
            "6: margin one f32 over 1,024",
            Call {
                margin: LONGEST.next_up(),
                ..fine()
            },
        ),
        (
            "6: position",
            Call {
                position: Vec2::new(0.0, -REACH.next_up()),
                ..fine()
            },
        ),
        (
            "6: velocity",
            Call {
                velocity: Vec2::new(f32::NEG_INFINITY, 0.0),
                ..fine()
            },
        ),
        (
            "6 told before 3",
            Call {
                kind: 3,
                horizon: f32::NAN,
                ..fine()
            },
        ),
    ]
}

/// At the origin, the horizon 1.
fn at_rest(kind: u32, vertices: &[Pair], margin: f32) -> Call {
    Call {
        kind,
        ..Call::new(&Encounter {
            closed: true,
            vertices: vertices.iter().map(|(x, y)| Vec2::new(*x, *y)).collect(),
            position: Vec2::ZERO,
            velocity: Vec2::ZERO,
            margin,
            horizon: 1.0,
        })
    }
}
