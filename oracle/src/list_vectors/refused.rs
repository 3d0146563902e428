//! Random lists with one to three faults, so that the order of the faults decides as well.

use glam::Vec2;

use super::call::Call;
use super::judge::{BAND_HIGH, BAND_LOW, LINE_REACH, LONGEST, MOST_LINES, REACH};
use super::made::{direction_with_dot, short};
use crate::random::Random;

type Spoil = fn(&mut Random, &mut Call);

/// Faults of single numbers are more common than those of counts.
const FAULTS: [Spoil; 12] = [
    part_of_a_line,
    part_of_a_line,
    wish_out_of_range,
    wish_out_of_range,
    limit_out_of_range,
    limit_out_of_range,
    point_out_of_range,
    point_out_of_range,
    direction_not_finite,
    direction_out_of_band,
    direction_out_of_band,
    direction_out_of_band,
];

pub fn faulty(random: &mut Random) -> Call {
    let mut call = short(random);
    if call.numbers.is_empty() {
        call.push(Vec2::ZERO, Vec2::new(1.0, 0.0));
    }
    if random.one_in(40) {
        too_many_lines(random, &mut call);
    }
    for _ in 0..1 + random.below(3) {
        let spoil = random.pick(&FAULTS);
        spoil(random, &mut call);
    }
    call
}

fn too_many_lines(random: &mut Random, call: &mut Call) {
    let count = 4 * (MOST_LINES + 1 + random.below(3));
    let given = call.numbers.len();
    call.numbers = (0..count)
        .map(|place| call.numbers[place % given])
        .collect();
}

fn part_of_a_line(random: &mut Random, call: &mut Call) {
    for _ in 0..1 + random.below(3) {
        call.numbers.push(random.within(1.0));
    }
}

fn wish_out_of_range(random: &mut Random, call: &mut Call) {
    let number = too_large(random, REACH);
    if random.one_in(2) {
        call.wish.x = number;
    } else {
        call.wish.y = number;
    }
}

fn limit_out_of_range(random: &mut Random, call: &mut Call) {
    let negative = random.magnitude(f32::from_bits(1), LONGEST);
    call.limit = if random.one_in(2) {
        too_large(random, LONGEST)
    } else {
        -negative.abs()
    };
}

fn point_out_of_range(random: &mut Random, call: &mut Call) {
    let place = line_start(random, call) + random.below(2);
    call.numbers[place] = too_large(random, LINE_REACH);
}

fn direction_not_finite(random: &mut Random, call: &mut Call) {
    let place = line_start(random, call) + 2 + random.below(2);
    call.numbers[place] = too_large(random, f32::MAX);
}

/// By one f32 to either side, or by far.
fn direction_out_of_band(random: &mut Random, call: &mut Call) {
    let direction = match random.below(6) {
        0 | 1 => direction_with_dot(random, BAND_LOW.next_down()),
        2 | 3 => direction_with_dot(random, BAND_HIGH.next_up()),
        4 => random.vector_within(0.5),
        _ => Vec2::new(random.magnitude(2.0, f32::MAX), random.whole(1)),
    };
    let place = line_start(random, call) + 2;
    call.numbers[place] = direction.x;
    call.numbers[place + 1] = direction.y;
}

fn line_start(random: &mut Random, call: &Call) -> usize {
    4 * random.below(call.line_count())
}

/// The next f32 above what is admitted, one far above, infinity, or a NaN of any pattern.
pub fn too_large(random: &mut Random, most: f32) -> f32 {
    let nan = f32::from_bits(random.pick(&[0x7FC0_0000, 0x7F80_0001, 0x7FFF_FFFF]));
    let far = random.magnitude(most, f32::INFINITY).abs();
    let number = random.pick(&[most.next_up(), far.next_up(), f32::INFINITY, nan]);
    random.signed(number)
}
