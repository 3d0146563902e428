//! Doubled vertices (02, T-11): 14 at the second vertex of a pair behind its own 6, the closing pair behind the last
//! vertex; and what is no pair.

use super::counts::VERSION;
use super::numbers::push;
use super::{Named, CLOSED_BYTE, OPEN_BYTE};
use crate::records::NUMBERED;

const NAN: f32 = f32::NAN;

pub fn records() -> Vec<Named> {
    let mut records = pairs();
    records.extend(closing());
    records.extend(no_pairs());
    records.extend(bench());
    records
}

/// The cart of docs/RECORDS.md, all zeros but for its horizon, 1; then obstacles, each its kind, its count and its numbers.
fn walls(obstacles: &[(u8, u8, &[f32])]) -> Vec<u8> {
    let mut rest = vec![1];
    push(&mut rest, &[0.0, 0.0, 0.0, 0.0, 0.0, 1.0, 0.0, 0.0, 0.0]);
    rest.push(obstacles.len() as u8);
    for (kind, count, numbers) in obstacles {
        rest.extend([*kind, *count]);
        push(&mut rest, numbers);
    }
    rest
}

fn behind(mut rest: Vec<u8>, bytes: &[u8]) -> Vec<u8> {
    rest.extend(bytes);
    rest
}

fn pairs() -> Vec<Named> {
    let row = "14: a vertex is the one before it again";
    let open = |count: u8, numbers: &[f32]| walls(&[(OPEN_BYTE, count, numbers)]);
    let mut numbered = open(2, &[0.0, 1.0, 0.0, 1.0]);
    numbered[VERSION] = NUMBERED;
    vec![
        (row, open(2, &[0.0, 0.0, 0.0, 0.0]), Some(14)),
        (row, behind(open(2, &[0.0, 1.0, 0.0, 1.0]), &[0]), Some(14)),
        (row, behind(open(3, &[0.0, 0.0, 1.0, 0.0, 1.0, 0.0]), &[0]), Some(14)),
        (row, numbered, Some(14)),
        ("14: but for the sign of a zero", open(2, &[0.0, 0.0, -0.0, 0.0]), Some(14)),
        ("14: but for the sign of a zero", open(2, &[-0.0, -0.0, 0.0, 0.0]), Some(14)),
        ("14 before 6: the vertex behind the pair", open(3, &[0.0, 0.0, 0.0, 0.0, NAN, 0.0]), Some(14)),
        ("14 before 2: a vertex count does not look ahead", open(64, &[0.0, 0.0, 0.0, 0.0]), Some(14)),
        ("6 before 14: in the second vertex", open(2, &[0.0, 0.0, 0.0, NAN]), Some(6)),
        ("6 before 14: in the second vertex", open(2, &[0.0, 0.0, NAN, 0.0]), Some(6)),
        ("2 before 14: the second vertex is cut short", open(2, &[0.0, 0.0, 0.0]), Some(2)),
        ("2 before 14: the second vertex is cut short", behind(open(2, &[0.0, 0.0, 0.0]), &[0, 0, 0]), Some(2)),
    ]
}

fn closing() -> Vec<Named> {
    let row = "14: the closing pair of a closed obstacle";
    let round = [0.0, 0.0, 1.0, 0.0, 0.0, -0.0];
    let closed = || walls(&[(CLOSED_BYTE, 3, &round)]);
    vec![
        ("14: closed, one vertex", walls(&[(CLOSED_BYTE, 1, &[0.0, 0.0])]), Some(14)),
        ("14: closed, one vertex", walls(&[(OPEN_BYTE, 1, &[0.0, 0.0]), (CLOSED_BYTE, 1, &[3.0, 0.0])]), Some(14)),
        (row, closed(), Some(14)),
        (row, behind(closed(), &[0]), Some(14)),
        ("14 before 4: the closing pair before a neighbour count of 65", behind(closed(), &[65]), Some(14)),
        ("4: the same vertices of an open obstacle", behind(walls(&[(OPEN_BYTE, 3, &round)]), &[65]), Some(4)),
        ("14 before 3: the closing pair before the next kind", walls(&[(CLOSED_BYTE, 3, &round), (3, 0, &[])]), Some(14)),
        ("2 before 14: the last vertex is missing", walls(&[(CLOSED_BYTE, 3, &round[..4])]), Some(2)),
    ]
}

fn no_pairs() -> Vec<Named> {
    let row = "no pair, though numbers are equal";
    let far: [f32; 4] = [5.0, 5.0, 6.0, 5.0];
    let answered = |obstacles: &[(u8, u8, &[f32])]| (row, behind(walls(obstacles), &[0]), None);
    vec![
        answered(&[(CLOSED_BYTE, 2, &far)]),
        answered(&[(OPEN_BYTE, 1, &[5.0, 5.0])]),
        answered(&[(CLOSED_BYTE, 0, &[]), (CLOSED_BYTE, 0, &[])]),
        answered(&[(OPEN_BYTE, 2, &far), (OPEN_BYTE, 2, &[6.0, 5.0, 5.0, 5.0])]),
        answered(&[(OPEN_BYTE, 3, &[5.0, 5.0, 6.0, 5.0, 5.0, 5.0])]),
        answered(&[(CLOSED_BYTE, 4, &[5.0, 5.0, 6.0, 5.0, 5.0, 5.0, 6.0, 6.0])]),
        answered(&[(OPEN_BYTE, 2, &[5.0, 5.0, 5.0, 5.0f32.next_up()])]),
        answered(&[(OPEN_BYTE, 2, &[5.0, 5.0, 5.0f32.next_down(), 5.0])]),
    ]
}

/// P12: margin and horizon 1, one closed vertex.
fn bench() -> Vec<Named> {
    let vertex = |x: f32| {
        let mut rest = vec![1];
        push(&mut rest, &[0.0, 0.0, 0.0, 0.0, 1.0, 1.0, 0.0, 0.0, 0.0]);
        rest.extend([1, CLOSED_BYTE, 1]);
        push(&mut rest, &[x, 0.0]);
        behind(rest, &[0])
    };
    vec![
        ("P12: 14 near the cart", vertex(0.5), Some(14)),
        ("P12: 14 far from it", vertex(5.0), Some(14)),
    ]
}
