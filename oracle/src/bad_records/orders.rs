//! Two faults in one record: the first in the order of the fields is told.

use super::counts::{agent_and, OBSTACLE_COUNT, VERSION};
use super::numbers::{push, scene, with, DIRECTION, LIMIT, MARGIN, POSITION};
use super::{Named, CLOSED_BYTE, OPEN_BYTE};

const NAN: f32 = f32::NAN;

pub fn records() -> Vec<Named> {
    let mut records = of_fields();
    records.extend(of_lines());
    records.extend(left_over());
    records
}

fn of_fields() -> Vec<Named> {
    let mut other_version = with(scene(), POSITION, NAN);
    other_version[VERSION] = 3;
    let mut missing_vertices = agent_and(&[1, CLOSED_BYTE, 3]);
    push(&mut missing_vertices, &[NAN, 0.0]);
    let mut many = with(scene(), LIMIT, NAN);
    many[OBSTACLE_COUNT] = 17;
    vec![
        ("1 before 6", other_version, Some(1)),
        (
            "6 before 2: a vertex count does not look ahead",
            missing_vertices,
            Some(6),
        ),
        (
            "6 before 4: a limit before the obstacle count",
            many,
            Some(6),
        ),
        (
            "6 before 6: nothing is told of the second",
            with(with(scene(), LIMIT, NAN), MARGIN, NAN),
            Some(6),
        ),
        (
            "3 before 2: the kind before its count",
            agent_and(&[1, 3]),
            Some(3),
        ),
        (
            "3 before 4: the kind before its count",
            agent_and(&[1, 3, 65]),
            Some(3),
        ),
        (
            "3 before 5: another kind, no vertices",
            agent_and(&[1, 0, 0]),
            Some(3),
        ),
        (
            "4 before 2: an obstacle count does not look ahead",
            agent_and(&[17]),
            Some(4),
        ),
        (
            "4 before 3: an obstacle count before the kind",
            agent_and(&[17, 3]),
            Some(4),
        ),
        (
            "5 before 3: the obstacle before",
            agent_and(&[2, OPEN_BYTE, 0, 3]),
            Some(5),
        ),
        (
            "2 before 5: the vertices of the obstacle before",
            agent_and(&[2, CLOSED_BYTE, 1, OPEN_BYTE, 0]),
            Some(2),
        ),
    ]
}

/// Lines of no obstacles.
fn of_lines() -> Vec<Named> {
    let lines = |count: u8, numbers: &[f32]| {
        let mut rest = agent_and(&[0, count]);
        push(&mut rest, numbers);
        rest
    };
    vec![
        (
            "7: a direction that ends the record",
            lines(1, &[0.0, 0.0, 1.0, 1.0]),
            Some(7),
        ),
        (
            "6 before 7: a line's point before its direction",
            lines(1, &[0.0, NAN, 1.0, 1.0]),
            Some(6),
        ),
        (
            "6 before 7: both components before the band",
            lines(1, &[0.0, 0.0, 3.0, NAN]),
            Some(6),
        ),
        (
            "2 before 7: both components before the band",
            lines(1, &[0.0, 0.0, 3.0]),
            Some(2),
        ),
        (
            "7 before 6: a line before the next",
            lines(2, &[0.0, 0.0, 1.0, 1.0, NAN, 0.0, 1.0, 0.0]),
            Some(7),
        ),
        (
            "7 before 2: a line count does not look ahead",
            lines(2, &[0.0, 0.0, 1.0, 1.0]),
            Some(7),
        ),
        (
            "2 after a line: the next is missing",
            lines(2, &[0.0, -1.0, 1.0, 0.0]),
            Some(2),
        ),
        (
            "4 before 6: a line count before its lines",
            lines(65, &[NAN]),
            Some(4),
        ),
    ]
}

fn left_over() -> Vec<Named> {
    let behind = |mut rest: Vec<u8>, bytes: &[u8]| {
        rest.extend(bytes);
        rest
    };
    vec![
        ("2: bytes left over", behind(scene(), &[0]), Some(2)),
        ("2: bytes left over", behind(scene(), &scene()), Some(2)),
        (
            "7 before 2: bytes left over come last",
            behind(with(scene(), DIRECTION, 2.0), &[0]),
            Some(7),
        ),
        ("9: an edge line without direction", apart(), Some(9)),
        ("9: the same in the second pass only", at_rest_alone(), Some(9)),
        (
            "2 before 9: bytes left over before any edge line",
            behind(apart(), &[0]),
            Some(2),
        ),
    ]
}

/// The right vertex of an open wall is just inside the margin, the edge is not.
fn apart() -> Vec<u8> {
    let bits = [0, 0, 0x3DB6_8D80, 0xBF49_E3E8, 0x3F78_4414, 0x3F80_0000, 0, 0, 0x3F80_0000];
    let vertices = [0xBF99_61B6, 0xBF4C_168E, 0xBF70_E300, 0x3E70_5186];
    of_bits(&bits, &[1, OPEN_BYTE, 2], &vertices)
}

/// A wall there and back: the agent's speed gives it a line that covers the edge behind it, at rest none does.
fn at_rest_alone() -> Vec<u8> {
    let bits = [
        0x3EB7_E080, 0xBF4E_DA8D, 0xC0B9_E808, 0xBF68_9900, 0x3FF9_E821, 0x3F00_0000, 0xBF95_92EE,
        0x3F77_A34D, 0x3E63_6F24,
    ];
    let vertices = [0xBF5E_98FE, 0x3F35_946B, 0xBFF0_AAB7, 0xBDDF_772F];
    of_bits(&bits, &[1, CLOSED_BYTE, 2], &vertices)
}

/// The cart's numbers, an obstacle's head, its vertices, and no lines.
fn of_bits(cart: &[u32; 9], head: &[u8], vertices: &[u32]) -> Vec<u8> {
    let bytes = |bits: &[u32]| bits.iter().flat_map(|word| word.to_be_bytes()).collect::<Vec<u8>>();
    [&[1], &bytes(cart)[..], head, &bytes(vertices), &[0]].concat()
}
