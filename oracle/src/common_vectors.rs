//! The vectors of common.rs and `Vec2`: 4,096 records of 31 words.
//! Inputs a (2 words), b (2), k; then determinant(a, b), a + b (2), a - b (2), -a (2), a * k (2),
//! a / k (2), a.dot(b), a.perp() (2), a.length_squared(), a.distance_squared(b),
//! a.normalize() (2), a == b (1 or 0); then a second line's start and end (2 each), and of it and
//! the line from a to b 1 and the times (2) at which they meet, or 0, 0, 0 where they are parallel.
//! No input is NaN.

use dodgy_plain::debug::{determinant, time_to_intersect_lines};
use glam::Vec2;

use crate::coverage_table;
use crate::random::Random;
use crate::words::Words;

const SEED: u64 = 0x636F_6D6D_6F6E;
/// Of the second lines, so that all else is as it would be without them.
const LINES_SEED: u64 = 0x6C69_6E65_73;
const RECORDS: usize = 4096;

pub struct Input {
    pub a: Vec2,
    pub b: Vec2,
    pub k: f32,
}

type Draw = fn(&mut Random) -> f32;
type Make = fn(&mut Random) -> Input;

/// How inputs are made, and how many of each.
const PARTS: [(Make, usize); 14] = [
    (|random| each(random, ordinary), 768),
    (|random| each(random, small_whole), 512),
    (|random| each(random, any_bits), 256),
    (|random| each(random, infinite_or_ordinary), 256),
    (|random| each(random, zero_or_ordinary), 256),
    (|random| each(random, subnormal), 256),
    (|random| each(random, largest), 256),
    (|random| each(random, overflowing), 256),
    (|random| each(random, underflowing), 256),
    (|random| each(random, of_any_part), 256),
    (equal, 256),
    (equal_but_for_zero_sign, 128),
    (equal_but_for_one_component, 128),
    (parallel, 256),
];

/// An input, and the line that meets the one from a to b.
struct Case {
    input: Input,
    start: Vec2,
    end: Vec2,
}

type MakeLine = fn(&mut Random, &Input) -> [Vec2; 2];

/// How second lines are made, by turns.
const LINES: [MakeLine; 9] = [
    |random, _| of_two(random, ordinary),
    |random, _| of_two(random, small_whole),
    |random, _| of_two(random, of_any_part),
    |_, input| [input.a.perp(), input.b.perp()],
    |_, input| [-input.a, -input.b],
    |random, input| touching(random, input),
    |random, input| beside(random, input),
    |random, input| almost_parallel(random, input),
    |random, input| through(random, input),
];

type Test = fn(Option<Vec2>) -> bool;

const ROWS: [(&str, Test); 8] = [
    ("parallel lines", |times| times.is_none()),
    ("both times from 0 to 1", |times| {
        times.is_some_and(|at| is_within(at.x) && is_within(at.y))
    }),
    ("a time of exactly 0", |times| {
        some_time(times, |time| time == 0.0)
    }),
    ("a time of exactly 1", |times| {
        some_time(times, |time| time == 1.0)
    }),
    ("a time below 0", |times| {
        some_time(times, |time| time < 0.0)
    }),
    ("a time above 1", |times| {
        some_time(times, |time| time > 1.0)
    }),
    ("an infinite time", |times| {
        some_time(times, f32::is_infinite)
    }),
    ("a time that is a NaN", |times| {
        some_time(times, f32::is_nan)
    }),
];

fn is_within(time: f32) -> bool {
    (0.0..=1.0).contains(&time)
}

fn some_time(times: Option<Vec2>, test: fn(f32) -> bool) -> bool {
    times.is_some_and(|times| test(times.x) || test(times.y))
}

/// The same bytes at each call, and the table of what the meetings of lines cover.
pub fn bytes() -> Result<(Vec<u8>, String), String> {
    let mut random = Random::new(LINES_SEED);
    let cases: Vec<Case> = inputs(SEED)
        .into_iter()
        .enumerate()
        .map(|(place, input)| {
            let [start, end] = LINES[place % LINES.len()](&mut random, &input);
            Case { input, start, end }
        })
        .collect();
    let table = coverage_table::of(
        &cases,
        ("Two lines", &[("in all", |_| true)]),
        &ROWS,
        |test, case| test(times(case)),
    )?;
    Ok((Words::of(&cases, write_record), table))
}

fn times(case: &Case) -> Option<Vec2> {
    time_to_intersect_lines(case.input.a, case.input.b, case.start, case.end)
}

pub fn inputs(seed: u64) -> Vec<Input> {
    let mut random = Random::new(seed);
    let mut inputs = Vec::new();
    for (make, count) in PARTS {
        for _ in 0..count {
            inputs.push(make(&mut random));
        }
    }
    assert_eq!(inputs.len(), RECORDS);
    inputs
}

fn write_record(words: &mut Words, case: &Case) {
    let Input { a, b, k } = case.input;
    words.vector(a);
    words.vector(b);
    words.number(k);
    words.number(determinant(a, b));
    words.vector(a + b);
    words.vector(a - b);
    words.vector(-a);
    words.vector(a * k);
    words.vector(a / k);
    words.number(a.dot(b));
    words.vector(a.perp());
    words.number(a.length_squared());
    words.number(a.distance_squared(b));
    words.vector(a.normalize());
    words.word(u32::from(a == b));
    words.vector(case.start);
    words.vector(case.end);
    let times = times(case);
    words.word(u32::from(times.is_some()));
    words.vector(times.unwrap_or(Vec2::ZERO));
}

fn of_two(random: &mut Random, draw: Draw) -> [Vec2; 2] {
    [(); 2].map(|_| Vec2::new(draw(random), draw(random)))
}

/// One end is an end of the line from a to b.
fn touching(random: &mut Random, input: &Input) -> [Vec2; 2] {
    let end = random.pick(&[input.a, input.b]);
    let [other, _] = of_two(random, small_whole);
    random.pick(&[[end, other], [other, end]])
}

/// As far along, but for rounding; it may be the same line, or the line turned.
fn beside(random: &mut Random, input: &Input) -> [Vec2; 2] {
    let by = Vec2::new(random.whole(1), random.whole(1));
    let (a, b) = (input.a + by, input.b + by);
    random.pick(&[[a, b], [b, a]])
}

/// Beside it, with one end moved by as little as there is.
fn almost_parallel(random: &mut Random, input: &Input) -> [Vec2; 2] {
    let [start, end] = beside(random, input);
    let x = random.pick(&[end.x.next_down(), end.x.next_up()]);
    [start, Vec2::new(x, end.y)]
}

/// Across its middle.
fn through(random: &mut Random, input: &Input) -> [Vec2; 2] {
    let middle = (input.a + input.b) * 0.5;
    let half = (input.b - input.a).perp() * random.within(2.0);
    [middle - half, middle + half]
}

fn each(random: &mut Random, draw: Draw) -> Input {
    let a = Vec2::new(draw(random), draw(random));
    let b = Vec2::new(draw(random), draw(random));
    Input {
        a,
        b,
        k: draw(random),
    }
}

fn ordinary(random: &mut Random) -> f32 {
    random.magnitude(1e-3, 1e3)
}

fn small_whole(random: &mut Random) -> f32 {
    random.whole(8)
}

/// Every f32 but the NaNs, infinity last.
fn any_bits(random: &mut Random) -> f32 {
    random.magnitude(0.0, f32::INFINITY)
}

fn infinite_or_ordinary(random: &mut Random) -> f32 {
    if random.one_in(2) {
        random.signed(f32::INFINITY)
    } else {
        ordinary(random)
    }
}

fn zero_or_ordinary(random: &mut Random) -> f32 {
    if random.one_in(2) {
        random.signed(0.0)
    } else {
        ordinary(random)
    }
}

fn subnormal(random: &mut Random) -> f32 {
    random.magnitude(f32::from_bits(1), f32::MIN_POSITIVE)
}

/// From half the largest number up, so that sums overflow as well; the largest itself often.
fn largest(random: &mut Random) -> f32 {
    if random.one_in(4) {
        random.signed(f32::MAX)
    } else {
        random.magnitude(f32::MAX / 2.0, f32::MAX)
    }
}

/// Around the root of the largest number, 2^64: products overflow or just do not.
fn overflowing(random: &mut Random) -> f32 {
    random.magnitude(4.6e18, 7.4e19)
}

/// Around the root of the smallest number, 2^-74.5: products are subnormal or round to zero.
fn underflowing(random: &mut Random) -> f32 {
    random.magnitude(6.6e-24, 4.2e-22)
}

fn of_any_part(random: &mut Random) -> f32 {
    let draw: Draw = random.pick(&[
        ordinary as Draw,
        small_whole,
        any_bits,
        infinite_or_ordinary,
        zero_or_ordinary,
        subnormal,
        largest,
        overflowing,
        underflowing,
    ]);
    draw(random)
}

fn equal(random: &mut Random) -> Input {
    let input = each(random, of_any_part);
    Input {
        b: input.a,
        ..input
    }
}

fn equal_but_for_zero_sign(random: &mut Random) -> Input {
    let zero = random.signed(0.0);
    let other = zero_or_ordinary(random);
    let (a, b) = (Vec2::new(zero, other), Vec2::new(-zero, other));
    let k = zero_or_ordinary(random);
    if random.one_in(2) {
        Input { a, b, k }
    } else {
        Input {
            a: a.perp(),
            b: b.perp(),
            k,
        }
    }
}

fn equal_but_for_one_component(random: &mut Random) -> Input {
    let Input { a, b, k } = each(random, ordinary);
    if random.one_in(2) {
        Input {
            a,
            b: Vec2::new(a.x, b.y),
            k,
        }
    } else {
        Input {
            a,
            b: Vec2::new(b.x, a.y),
            k,
        }
    }
}

/// The products of the determinant cancel but for their rounding, which a fused multiply would show.
fn parallel(random: &mut Random) -> Input {
    let input = each(random, ordinary);
    Input {
        b: input.a * input.k,
        ..input
    }
}
