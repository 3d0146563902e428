//! P11 and the case of P12 that gives no line, in both builds, by value.
//! The agent is at the origin, at rest; the horizon is 1.

use glam::Vec2;

use super::Outcome;
use crate::encounters::{edge_lines, EdgeLine, Encounter};

struct Case {
    name: &'static str,
    encounter: Encounter,
    lines: Vec<EdgeLine>,
}

pub fn check() -> Outcome {
    let cases = cases();
    for case in &cases {
        let lines = edge_lines(&case.encounter)?.lines;
        if lines != case.lines {
            return Err(format!(
                "{} gives {lines:?}, not {:?}: {}",
                case.name, case.lines, case.encounter
            ));
        }
    }
    Ok(format!("{} cases", cases.len()))
}

fn cases() -> Vec<Case> {
    let (left, right) = (Vec2::new(-1.0, 1.0), Vec2::new(1.0, 1.0));
    let backwards = Vec2::new(-1.0, 0.0);
    vec![
        Case {
            name: "P11, margin 2",
            encounter: at_rest(false, vec![left, right], 2.0),
            lines: vec![(Vec2::ZERO, backwards)],
        },
        Case {
            name: "P11, margin 0.5",
            encounter: at_rest(false, vec![left, right], 0.5),
            lines: vec![(Vec2::new(-1.0, 0.5), backwards)],
        },
        Case {
            name: "P11, margin 2, vertices exchanged",
            encounter: at_rest(false, vec![right, left], 2.0),
            lines: vec![],
        },
        Case {
            name: "P11, margin 0.5, vertices exchanged",
            encounter: at_rest(false, vec![right, left], 0.5),
            lines: vec![],
        },
        Case {
            name: "P12, vertex (5,0)",
            encounter: at_rest(true, vec![Vec2::new(5.0, 0.0)], 1.0),
            lines: vec![],
        },
    ]
}

fn at_rest(closed: bool, vertices: Vec<Vec2>, margin: f32) -> Encounter {
    Encounter {
        closed,
        vertices,
        position: Vec2::ZERO,
        velocity: Vec2::ZERO,
        margin,
        horizon: 1.0,
    }
}
