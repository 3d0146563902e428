//! Random lists that are admitted.

use dodgy_plain::debug::Line;
use glam::Vec2;

use super::call::Call;
use super::judge::{BAND_HIGH, BAND_LOW, LINE_REACH, LONGEST, MOST_LINES, REACH};
use crate::builds::solve_counted;
use crate::line_lists::{random_list_of, whole_vector, LineList};
use crate::random::Random;

/// The solver's tolerance for parallel lines, 0.00001.
const TOLERANCE: f32 = f32::from_bits(0x3727_C5AC);

pub const SHORT: usize = 12;

/// Any layout of the self-check.
pub fn short(random: &mut Random) -> Call {
    let count = random.below(SHORT + 1);
    of_length(random, count)
}

/// Between the short lists and the longest.
pub fn long(random: &mut Random) -> Call {
    let count = SHORT + 1 + random.below(MOST_LINES - SHORT - 2);
    of_length(random, count)
}

/// As many lines as there may be, or one less.
pub fn full(random: &mut Random) -> Call {
    let count = MOST_LINES - random.below(2);
    of_length(random, count)
}

pub fn of_length(random: &mut Random, count: usize) -> Call {
    let list = random_list_of(random, count);
    with_rigid_count(random, list)
}

/// Directions along an axis, some off by the tolerance or by an f32 more or less: determinants come out exactly there.
pub fn at_tolerance(random: &mut Random) -> Call {
    made(random, |random| Line {
        point: whole_vector(random, 2),
        direction: direction_at_tolerance(random),
    })
}

fn direction_at_tolerance(random: &mut Random) -> Vec2 {
    let off = random.pick(&[
        0.0,
        TOLERANCE.next_down(),
        TOLERANCE,
        TOLERANCE,
        TOLERANCE.next_up(),
    ]);
    let direction = Vec2::new(random.signed(1.0), random.signed(off));
    if random.one_in(4) {
        direction.perp()
    } else {
        direction
    }
}

/// Directions whose computed dot with themselves is an end of the band.
pub fn at_band_ends(random: &mut Random) -> Call {
    made(random, |random| {
        let end = random.pick(&[BAND_LOW, BAND_HIGH]);
        Line {
            point: random.vector_within(3.0),
            direction: direction_with_dot(random, end),
        }
    })
}

/// The roundings hit the dot in about one of three tries.
pub fn direction_with_dot(random: &mut Random, dot: f32) -> Vec2 {
    loop {
        let direction = random.direction();
        let scale = (f64::from(dot) / f64::from(direction.dot(direction))).sqrt();
        let scaled = |component: f32| (f64::from(component) * scale) as f32;
        let direction = Vec2::new(scaled(direction.x), scaled(direction.y));
        if direction.dot(direction) == dot {
            return direction;
        }
    }
}

/// Coordinates and limits at the ends of what is admitted, and the smallest there are.
pub fn extreme(random: &mut Random) -> Call {
    let list = LineList {
        wish: extreme_vector(random, REACH),
        limit: random.extreme(LONGEST),
        rigid_count: 0,
        lines: lines_of(random, |random| Line {
            point: extreme_vector(random, LINE_REACH),
            direction: extreme_direction(random),
        }),
    };
    let limit = if random.one_in(8) {
        -0.0
    } else {
        list.limit.abs()
    };
    with_rigid_count(random, LineList { limit, ..list })
}

fn extreme_vector(random: &mut Random, reach: f32) -> Vec2 {
    Vec2::new(random.extreme(reach), random.extreme(reach))
}

fn extreme_direction(random: &mut Random) -> Vec2 {
    let end = random.pick(&[BAND_LOW, BAND_HIGH]);
    match random.below(4) {
        0 => direction_with_dot(random, end),
        1 => Vec2::new(random.signed(1.0), random.extreme(f32::MIN_POSITIVE)),
        2 => Vec2::new(random.extreme(f32::MIN_POSITIVE), random.signed(1.0)),
        _ => random.direction(),
    }
}

/// Lines that touch the circle of the limit, on either side, or miss it by roundings; half the wishes do so as well.
pub fn tangent(random: &mut Random) -> Call {
    let any = random.magnitude(0.25, 4.0).abs();
    let limit = random.pick(&[0.5, 1.0, 2.0, any, any]);
    let (far, near) = (random.vector_within(4.0), random.direction() * limit);
    let list = LineList {
        wish: random.pick(&[far, near]),
        limit,
        rigid_count: 0,
        lines: lines_of(random, |random| {
            let direction = random.direction();
            Line {
                point: direction.perp() * random.signed(limit) + direction * random.whole(1),
                direction,
            }
        }),
    };
    with_rigid_count(random, list)
}

/// Limits and wishes of few different values, so that ties are common.
fn made(random: &mut Random, line: impl FnMut(&mut Random) -> Line) -> Call {
    let list = LineList {
        wish: whole_vector(random, 2),
        limit: random.pick(&[0.0, 0.5, 1.0, 2.0, LONGEST]),
        rigid_count: 0,
        lines: lines_of(random, line),
    };
    with_rigid_count(random, list)
}

fn lines_of(random: &mut Random, mut line: impl FnMut(&mut Random) -> Line) -> Vec<Line> {
    let count = random.below(SHORT + 1);
    (0..count).map(|_| line(random)).collect()
}

/// A rigid count that decides what a failure becomes: none, the failed line's index, one more, above the lines, or any.
pub fn with_rigid_count(random: &mut Random, list: LineList) -> Call {
    let mut call = Call::new(&list);
    let above = list.lines.len() + 1 + random.below(3);
    let (_, counts) = solve_counted(&LineList {
        rigid_count: usize::MAX,
        ..list
    });
    let failed = counts.failed_line.unwrap_or(0) as u32;
    call.rigid_count = match random.below(16) {
        0..=5 => 0,
        6..=9 => failed,
        10..=11 => failed + 1,
        12 => above as u32,
        13 => u32::MAX,
        _ => call.rigid_count,
    };
    call
}
