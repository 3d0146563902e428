//! P1 to P9 of the definition of the build, and one list whose inner solve fails.
//! Numbers are compared by value, as that table has them: P6 ends in (-0, 2).

use counters::{Cause, Counts};
use dodgy_plain::debug::Line;
use glam::Vec2;

use super::Outcome;
use crate::builds::{solve_counted, solve_plain, Answer};
use crate::line_lists::LineList;

struct Case {
    name: &'static str,
    list: LineList,
    answer: Answer,
    counts: Counts,
}

pub fn check() -> Outcome {
    let cases = cases();
    for case in &cases {
        let (answer, counts) = solve_counted(&case.list);
        if (answer, counts) != (case.answer, case.counts) || solve_plain(&case.list) != case.answer
        {
            return Err(format!(
                "{} gives {answer:?}, {counts:?}, not {:?}, {:?}: {}",
                case.name, case.answer, case.counts, case.list
            ));
        }
    }
    Ok(format!("{} cases", cases.len()))
}

fn cases() -> Vec<Case> {
    let ahead = || line((0.0, 1.0), (1.0, 0.0));
    let behind = || line((0.0, -1.0), (-1.0, 0.0));
    let out_of_reach = || line((0.0, 3.0), (1.0, 0.0));
    let minus_root_of_three = -1.7320508;
    vec![
        Case {
            name: "P1",
            list: list((3.0, 4.0), 5.0, 0, vec![]),
            answer: Ok(Vec2::new(3.0, 4.0)),
            counts: solved(0),
        },
        Case {
            name: "P2",
            list: list((4.0, 0.0), 2.0, 0, vec![]),
            answer: Ok(Vec2::new(2.0, 0.0)),
            counts: solved(0),
        },
        Case {
            name: "P3",
            list: list((0.0, 0.0), 2.0, 0, vec![ahead()]),
            answer: Ok(Vec2::new(0.0, 1.0)),
            counts: solved(1),
        },
        Case {
            name: "P4",
            list: list((1.0, 0.0), 2.0, 0, vec![line((0.0, 0.0), (1.0, 0.0))]),
            answer: Ok(Vec2::new(1.0, 0.0)),
            counts: solved(1),
        },
        Case {
            name: "P5",
            list: list((0.0, 0.0), 2.0, 1, vec![out_of_reach()]),
            answer: Err(Vec2::new(0.0, 0.0)),
            counts: failed_rigidly(0, Cause::Circle, 1),
        },
        Case {
            name: "P6",
            list: list((0.0, 0.0), 2.0, 0, vec![out_of_reach()]),
            answer: Ok(Vec2::new(0.0, 2.0)),
            counts: relaxed(0, Cause::Circle, 1.0, 2, (1, 1)),
        },
        Case {
            name: "P7",
            list: list((0.0, 0.0), 2.0, 0, vec![ahead(), behind()]),
            answer: Ok(Vec2::new(-2.0, 0.0)),
            counts: relaxed(1, Cause::Parallel(0), 1.0, 6, (1, 1)),
        },
        Case {
            name: "P8",
            list: list((0.0, 0.0), 2.0, 1, vec![ahead(), behind()]),
            answer: Ok(Vec2::new(minus_root_of_three, 1.0)),
            counts: relaxed(1, Cause::Parallel(0), 2.0, 5, (1, 1)),
        },
        Case {
            name: "P9",
            list: list((0.0, 0.0), 2.0, 2, vec![ahead(), behind()]),
            answer: Err(Vec2::new(0.0, 1.0)),
            counts: failed_rigidly(1, Cause::Parallel(0), 3),
        },
        // The circle is judged before the parallel line, which would fail it too.
        Case {
            name: "circle before a parallel line",
            list: list((0.0, 0.0), 2.0, 2, vec![ahead(), line((0.0, -3.0), (-1.0, 0.0))]),
            answer: Err(Vec2::new(0.0, 1.0)),
            counts: failed_rigidly(1, Cause::Circle, 2),
        },
        Case {
            name: "a cause behind the first line",
            list: list((0.0, 0.0), 2.0, 3, vec![line((0.0, -2.0), (1.0, 0.0)), ahead(), behind()]),
            answer: Err(Vec2::new(0.0, 1.0)),
            counts: failed_rigidly(2, Cause::Parallel(1), 6),
        },
        Case {
            name: "ends that cross",
            list: list(
                (0.0, 0.0),
                2.0,
                2,
                vec![line((0.0, 1.5), (1.0, 0.0)), line((1.5, 0.0), (0.0, -1.0))],
            ),
            answer: Err(Vec2::new(0.0, 1.5)),
            counts: failed_rigidly(1, Cause::Crossing(0), 3),
        },
        // The second line's inner solve fails; the line that it looked at and the one examined for its list are probes
        // all the same.
        Case {
            name: "failing inner solve",
            list: list(
                (0.0, 0.0),
                0.0,
                0,
                vec![
                    line((-2.0, 2.0), (-0.6, 0.8)),
                    line((0.0, 0.5), (0.8, -0.6)),
                ],
            ),
            answer: Ok(Vec2::new(0.0, 0.0)),
            counts: relaxed(0, Cause::Circle, 0.39999998, 5, (2, 1)),
        },
    ]
}

fn list(wish: (f32, f32), limit: f32, rigid_count: usize, lines: Vec<Line>) -> LineList {
    LineList {
        wish: Vec2::new(wish.0, wish.1),
        limit,
        rigid_count,
        lines,
    }
}

fn line(point: (f32, f32), direction: (f32, f32)) -> Line {
    Line {
        point: Vec2::new(point.0, point.1),
        direction: Vec2::new(direction.0, direction.1),
    }
}

fn solved(probes: u32) -> Counts {
    Counts {
        probes,
        failed_line: None,
        cause: None,
        penetration: None,
        inner_solves_begun: 0,
        inner_solves_succeeded: 0,
    }
}

fn failed_rigidly(failed_line: usize, cause: Cause, probes: u32) -> Counts {
    Counts {
        failed_line: Some(failed_line),
        cause: Some(cause),
        ..solved(probes)
    }
}

/// `inner_solves` are those begun and those that succeeded.
fn relaxed(
    failed_line: usize,
    cause: Cause,
    penetration: f32,
    probes: u32,
    inner_solves: (u32, u32),
) -> Counts {
    Counts {
        probes,
        failed_line: Some(failed_line),
        cause: Some(cause),
        penetration: Some(penetration),
        inner_solves_begun: inner_solves.0,
        inner_solves_succeeded: inner_solves.1,
    }
}
