//! Moves by hand, each with what is told of it (02, T-08): ends, corners, both directions and edges turned,
//! determinants that are computed as 0 or are not, as many crossed edges as there may be, and each refusal behind a bad
//! position.

use glam::Vec2;

use super::{Call, Crossed, Shown, Told};
use crate::lent::Lent;
use crate::scenes::Obstacle;

const CLEAR: Told = Ok(None);
const ORIGIN: Vec2 = Vec2::ZERO;

pub fn calls() -> Vec<Shown> {
    [
        ends(),
        parallel(),
        all_edges(),
        computed(),
        most(),
        positions(),
        faults(),
        left_over(),
    ]
    .concat()
}

fn at(obstacle: usize, vertex: usize, count: usize) -> Told {
    Ok(Some(Crossed {
        obstacle,
        vertex,
        count,
    }))
}

fn obstacle(closed: bool, vertices: &[(f32, f32)]) -> Obstacle {
    let vertices = vertices.iter().map(|&(x, y)| Vec2::new(x, y)).collect();
    Obstacle { closed, vertices }
}

fn over(from: Vec2, to: Vec2, obstacles: &[Obstacle]) -> Call {
    let lent = Lent::of(obstacles);
    Call { from, to, lent }
}

/// Over the open wall from (-1, 1) to (1, 1).
fn over_wall(from: (f32, f32), to: (f32, f32)) -> Call {
    let wall = obstacle(false, &[(-1.0, 1.0), (1.0, 1.0)]);
    over(Vec2::new(from.0, from.1), Vec2::new(to.0, to.1), &[wall])
}

/// The move there and back, over the edge and over the edge turned, which all tell the same.
fn every_way(row: &'static str, call: Call, told: Told) -> Vec<Shown> {
    let back = Call {
        from: call.to,
        to: call.from,
        ..call.clone()
    };
    [call, back]
        .into_iter()
        .flat_map(|call| {
            let mut turned = call.clone();
            turned.lent.vertices = turned
                .lent
                .vertices
                .chunks_exact(2)
                .rev()
                .flatten()
                .copied()
                .collect();
            [(row, call, told), (row, turned, told)]
        })
        .collect()
}

fn ends() -> Vec<Shown> {
    let row = "ends of the move and of the wall";
    let below_1 = 1.0f32.next_down();
    let cases = [
        ((0.0, 0.0), (0.0, 2.0), at(0, 0, 1)),
        ((0.0, 0.0), (0.0, 1.0), at(0, 0, 1)),
        ((0.0, 0.0), (0.0, below_1), CLEAR),
        ((0.0, 0.0), (2.0, 2.0), at(0, 0, 1)),
        ((0.0, 0.0), (2.0f32.next_up().next_up(), 2.0), CLEAR),
        ((-1.0, 0.0), (-1.0, 1.0), at(0, 0, 1)),
        ((1.0, 1.0), (3.0, 3.0), at(0, 0, 1)),
        ((-0.0, 1.0), (0.0, -1.0), at(0, 0, 1)),
        ((0.0, 3.0), (0.0, 2.0), CLEAR),
    ];
    cases
        .into_iter()
        .flat_map(|(from, to, told)| every_way(row, over_wall(from, to), told))
        .collect()
}

fn parallel() -> Vec<Shown> {
    let row = "parallel: of no length, beside the wall, along it";
    let cases = [
        ((0.0, 0.0), (0.0, 0.0)),
        ((0.0, 1.0), (0.0, 1.0)),
        ((-1.0, 1.0), (-1.0, 1.0)),
        ((0.0, 0.0), (2.0, 0.0)),
        ((-2.0, 1.0), (2.0, 1.0)),
        ((-1.0, 1.0), (1.0, 1.0)),
    ];
    cases
        .into_iter()
        .flat_map(|(from, to)| every_way(row, over_wall(from, to), CLEAR))
        .collect()
}

fn all_edges() -> Vec<Shown> {
    let row = "all edges: from both sides, at a corner, the closing one; obstacles with none";
    let wall = [(-1.0, 1.0), (1.0, 1.0)];
    let pair = obstacle(true, &wall);
    let square = obstacle(true, &[(1.0, 1.0), (3.0, 1.0), (3.0, 3.0), (1.0, 3.0)]);
    let hook = obstacle(false, &[(1.0, 1.0), (3.0, 1.0), (3.0, 3.0), (1.0, 3.0)]);
    let north = Vec2::new(0.0, 2.0);
    let shown = |from: (f32, f32), to: (f32, f32), obstacles: &[Obstacle], told: Told| {
        let (from, to) = (Vec2::new(from.0, from.1), Vec2::new(to.0, to.1));
        [
            (row, over(from, to, obstacles), told),
            (row, over(to, from, obstacles), told),
        ]
    };
    let mut all = every_way(row, over(ORIGIN, north, &[pair.clone()]), at(0, 0, 2));
    all.extend(shown(
        (0.0, 0.0),
        (2.0, 2.0),
        &[square.clone()],
        at(0, 0, 2),
    ));
    all.extend(shown(
        (0.0, 2.0),
        (4.0, 2.0),
        &[square.clone()],
        at(0, 1, 2),
    ));
    all.extend(shown(
        (0.0, 2.0),
        (2.0, 2.0),
        &[square.clone()],
        at(0, 3, 1),
    ));
    all.extend(shown((0.0, 2.0), (2.0, 2.0), &[hook.clone()], CLEAR));
    all.extend(shown(
        (0.0, 2.0),
        (4.0, 2.0),
        &[hook, square.clone()],
        at(0, 1, 3),
    ));
    let far = obstacle(false, &[(5.0, 5.0), (6.0, 5.0), (6.0, 6.0)]);
    let behind = [far, obstacle(true, &[]), square, pair];
    all.extend(shown((0.0, 2.0), (4.0, 2.0), &behind, at(2, 1, 2)));
    all.extend(shown((0.0, 0.0), (0.0, 2.0), &behind, at(3, 0, 2)));
    for none in [obstacle(true, &[]), obstacle(false, &[(0.0, 1.0)])] {
        all.extend(shown((0.0, 0.0), (0.0, 2.0), &[none], CLEAR));
    }
    all.extend(shown((0.0, 0.0), (0.0, 2.0), &[], CLEAR));
    all
}

/// A determinant that underflows is 0; one however small that does not is none. A time may be infinite.
fn computed() -> Vec<Shown> {
    let row = "determinants as they are computed: below 0.00001, underflowing, an infinite time";
    let cross = |size: f32| {
        over(
            Vec2::new(-size, 0.0),
            Vec2::new(size, 0.0),
            &[obstacle(false, &[(0.0, -size), (0.0, size)])],
        )
    };
    let step = |exponent: u32| f32::from_bits((127 - exponent) << 23);
    let far = obstacle(false, &[(-65_536.0, -1.0), (-65_536.0, 1.0)]);
    let smallest = over(ORIGIN, Vec2::new(f32::from_bits(1), 0.0), &[far]);
    [
        every_way(row, cross(step(10)), at(0, 0, 1)),
        every_way(row, cross(step(20)), at(0, 0, 1)),
        every_way(row, cross(step(75)), at(0, 0, 1)),
        every_way(row, cross(step(80)), CLEAR),
        every_way(row, smallest, CLEAR),
    ]
    .concat()
}

/// Each edge lies from (0, 0) to (1, 0), or back.
fn most() -> Vec<Shown> {
    let row = "as many crossed edges as there may be";
    let zigzag: Vec<(f32, f32)> = (0..64).map(|place| ((place % 2) as f32, 0.0)).collect();
    let three = |closed: bool| vec![obstacle(closed, &zigzag); 3];
    let (from, to) = (Vec2::new(0.5, -1.0), Vec2::new(0.5, 1.0));
    let sixteen = vec![obstacle(true, &zigzag[..12]); 16];
    [
        every_way(row, over(from, to, &three(true)), at(0, 0, 192)),
        every_way(row, over(from, to, &three(false)), at(0, 0, 189)),
        every_way(row, over(from, to, &sixteen), at(0, 0, 192)),
    ]
    .concat()
}

/// The call with each component of both positions in turn.
fn with_each_component(call: &Call, number: f32) -> Vec<Call> {
    (0..4)
        .map(|place| {
            let mut call = call.clone();
            let position = if place < 2 {
                &mut call.from
            } else {
                &mut call.to
            };
            let component = if place % 2 == 0 {
                &mut position.x
            } else {
                &mut position.y
            };
            *component = number;
            call
        })
        .collect()
}

fn positions() -> Vec<Shown> {
    let row = "positions: the ends of their range, and beyond";
    let call = over_wall((5.0, 0.0), (5.0, 0.5));
    let reach: f32 = 65_536.0;
    let numbers = [
        (reach, CLEAR),
        (reach.next_up(), Err(6)),
        (f32::INFINITY, Err(6)),
        (f32::NEG_INFINITY, Err(6)),
        (f32::NAN, Err(6)),
    ];
    numbers
        .into_iter()
        .flat_map(|(number, told)| {
            with_each_component(&call, number)
                .into_iter()
                .map(move |call| (row, call, told))
        })
        .collect()
}

fn lent(obstacles: u32, kinds: &[u8], counts: &[u8], vertices: &[f32]) -> Call {
    Call {
        lent: Lent {
            obstacles,
            kinds: kinds.to_vec(),
            counts: counts.to_vec(),
            vertices: vertices.to_vec(),
        },
        ..over_wall((0.0, 0.0), (0.0, 2.0))
    }
}

/// Each by itself, then behind a bad position, which is told first.
fn faults() -> Vec<Shown> {
    let row = "faults of what is lent, alone and behind a bad position";
    let nan = f32::NAN;
    let alternating: Vec<f32> = (0..386).map(|place| (place / 2 % 2) as f32).collect();
    let faults = [
        (lent(17, &[], &[], &[]), 4),
        (lent(u32::MAX, &[], &[], &[]), 4),
        (lent(1, &[], &[2], &[]), 2),
        (lent(1, &[3], &[], &[]), 3),
        (lent(1, &[0], &[2], &[nan]), 3),
        (lent(1, &[1], &[], &[]), 2),
        (lent(1, &[1], &[65], &[]), 4),
        (lent(4, &[1; 4], &[64, 64, 64, 1], &alternating), 4),
        (lent(1, &[2], &[0], &[nan]), 5),
        (lent(1, &[2], &[2], &[nan, 0.0, 0.0]), 6),
        (lent(1, &[2], &[2], &[-1.0, nan, 1.0]), 6),
        (lent(1, &[2], &[2], &[-1.0, 1.0, 1.0]), 2),
        (lent(1, &[2], &[2], &[-1.0, 1.0]), 2),
        (lent(1, &[2], &[2], &[-1.0, 1.0, 1.0, 65_537.0]), 6),
        (lent(2, &[2, 4], &[2, 2], &[-1.0, 1.0, 1.0, 1.0]), 3),
        (lent(2, &[2], &[2, 2], &[-1.0, 1.0, 1.0, 1.0]), 2),
        (lent(1, &[1], &[1], &[0.0, 1.0]), 14),
        (lent(1, &[2], &[2], &[0.0, 1.0, -0.0, 1.0]), 14),
        (lent(1, &[2], &[3], &[0.0, 1.0, 0.0, 1.0, nan]), 14),
        (lent(1, &[2], &[2], &[0.0, 1.0, 0.0, nan]), 6),
        (lent(1, &[2], &[2], &[0.0, 1.0, 0.0]), 2),
        (lent(2, &[1, 3], &[3, 0], &[0.0, 1.0, 1.0, 1.0, 0.0, 1.0]), 14),
        (lent(2, &[2, 3], &[3, 0], &[0.0, 1.0, 1.0, 1.0, 0.0, 1.0]), 3),
        (lent(1, &[1], &[1], &[0.0, 1.0, 2.0]), 14),
    ];
    let mut shown = Vec::new();
    for (call, number) in faults {
        let spoiled = with_each_component(&call, nan);
        shown.push((row, call, Err(number)));
        shown.extend(spoiled.into_iter().map(|call| (row, call, Err(6))));
    }
    shown
}

fn left_over() -> Vec<Shown> {
    let row = "numbers left over: told last";
    let nan = f32::NAN;
    let wall = [-1.0, 1.0, 1.0, 1.0];
    vec![
        (row, lent(1, &[2], &[2], &wall), at(0, 0, 1)),
        (row, lent(1, &[2, 2], &[2], &wall), Err(2)),
        (row, lent(1, &[2], &[2, 0], &wall), Err(2)),
        (
            row,
            lent(1, &[2], &[2], &[-1.0, 1.0, 1.0, 1.0, 0.0]),
            Err(2),
        ),
        (
            row,
            lent(1, &[2], &[2], &[-1.0, 1.0, 1.0, 1.0, nan]),
            Err(2),
        ),
        (row, lent(0, &[2], &[2], &wall), Err(2)),
        (row, lent(0, &[], &[], &[nan]), Err(2)),
        (row, lent(1, &[2, 9], &[2, 255], &[-1.0, nan]), Err(6)),
    ]
}
