//! The stand-in `Vec2`, and determinant, against formulas whose steps are worked out in f64 and then
//! rounded to f32. f64 has more than two digits beyond twice those of f32, so that the second rounding
//! gives the correctly rounded f32: a fused, reordered or wider step would differ.

use glam::Vec2;

use super::Outcome;
use crate::common_vectors::{inputs, Input};
use crate::words::{hex, hex_vector, same, same_vector};

const SEEDS: [u64; 4] = [11, 12, 13, 14];

pub fn check() -> Outcome {
    let mut count = 0;
    for seed in SEEDS {
        for input in inputs(seed) {
            count += 1;
            if let Some(operation) = differing_operation(&input) {
                let (a, b) = (hex_vector(input.a), hex_vector(input.b));
                return Err(format!(
                    "{operation} differs: a {a} b {b} k {}",
                    hex(input.k)
                ));
            }
        }
    }
    Ok(format!("{count} inputs"))
}

fn differing_operation(input: &Input) -> Option<&'static str> {
    let number = numbers(input).into_iter().find(|(_, a, b)| !same(*a, *b));
    let vector = vectors(input)
        .into_iter()
        .find(|(_, a, b)| !same_vector(*a, *b));
    let Input { a, b, .. } = *input;
    let equality = (a == b) != (a.x == b.x && a.y == b.y);
    number
        .map(|(name, ..)| name)
        .or(vector.map(|(name, ..)| name))
        .or(equality.then_some("=="))
}

/// Operation, its result, the formula's.
fn numbers(input: &Input) -> [(&'static str, f32, f32); 6] {
    let Input { a, b, .. } = *input;
    let apart = minus(a, b);
    [
        (
            "determinant",
            dodgy_plain::debug::determinant(a, b),
            determinant(a, b),
        ),
        (
            "counted determinant",
            dodgy_counted::debug::determinant(a, b),
            determinant(a, b),
        ),
        ("dot", a.dot(b), dot(a, b)),
        ("length_squared", a.length_squared(), dot(a, a)),
        ("distance_squared", a.distance_squared(b), dot(apart, apart)),
        ("length", a.length(), root(dot(a, a))),
    ]
}

/// Operation, its result, the formula's. `new` comes first, since the formulas use it.
fn vectors(input: &Input) -> [(&'static str, Vec2, Vec2); 10] {
    let Input { a, b, k } = *input;
    let scale = quotient(1.0, root(dot(a, a)));
    [
        ("new", Vec2::new(a.x, a.y), a),
        ("ZERO", Vec2::ZERO, Vec2::new(0.0, 0.0)),
        ("+", a + b, Vec2::new(sum(a.x, b.x), sum(a.y, b.y))),
        ("-", a - b, minus(a, b)),
        ("negation", -a, Vec2::new(negative(a.x), negative(a.y))),
        ("vector * number", a * k, times(a, k)),
        ("number * vector", k * a, times(a, k)),
        ("/", a / k, Vec2::new(quotient(a.x, k), quotient(a.y, k))),
        ("perp", a.perp(), Vec2::new(negative(a.y), a.x)),
        ("normalize", a.normalize(), times(a, scale)),
    ]
}

fn determinant(a: Vec2, b: Vec2) -> f32 {
    difference(product(a.x, b.y), product(a.y, b.x))
}

fn dot(a: Vec2, b: Vec2) -> f32 {
    sum(product(a.x, b.x), product(a.y, b.y))
}

fn minus(a: Vec2, b: Vec2) -> Vec2 {
    Vec2::new(difference(a.x, b.x), difference(a.y, b.y))
}

fn times(a: Vec2, k: f32) -> Vec2 {
    Vec2::new(product(a.x, k), product(a.y, k))
}

fn negative(a: f32) -> f32 {
    f32::from_bits(a.to_bits() ^ 0x8000_0000)
}

fn sum(a: f32, b: f32) -> f32 {
    (f64::from(a) + f64::from(b)) as f32
}

fn difference(a: f32, b: f32) -> f32 {
    (f64::from(a) - f64::from(b)) as f32
}

fn product(a: f32, b: f32) -> f32 {
    (f64::from(a) * f64::from(b)) as f32
}

fn quotient(a: f32, b: f32) -> f32 {
    (f64::from(a) / f64::from(b)) as f32
}

fn root(a: f32) -> f32 {
    f64::from(a).sqrt() as f32
}
