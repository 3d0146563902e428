//! Each number of a record not finite, at the ends of its range and just beyond; and bytes missing at every place.

use super::Named;
use crate::edge_vectors::judge::{LONGEST_HORIZON, SHORTEST_HORIZON};
use crate::list_vectors::judge::{BAND_HIGH, BAND_LOW, LINE_REACH, LONGEST, REACH};
use crate::list_vectors::made::direction_with_dot;
use crate::random::Random;

const SEED: u64 = 0x6E75_6D62;

/// A number's place in what follows the length, and the ends of its range.
type Field = (usize, f32, f32);

/// Those of the scene below, but for its direction: position, velocity, margin, horizon, wish, limit, two vertices, a
/// line's point.
const FIELDS: [Field; 15] = [
    (1, -REACH, REACH),
    (5, -REACH, REACH),
    (9, -REACH, REACH),
    (13, -REACH, REACH),
    (17, 0.0, LONGEST),
    (21, SHORTEST_HORIZON, LONGEST_HORIZON),
    (25, -REACH, REACH),
    (29, -REACH, REACH),
    (33, 0.0, LONGEST),
    (40, -REACH, REACH),
    (44, -REACH, REACH),
    (48, -REACH, REACH),
    (52, -REACH, REACH),
    (57, -LINE_REACH, LINE_REACH),
    (61, -LINE_REACH, LINE_REACH),
];
pub const POSITION: usize = 1;
pub const MARGIN: usize = 17;
pub const LIMIT: usize = 33;
pub const DIRECTION: usize = 65;

/// An agent at rest at the origin before a wall, with a line behind it.
const NUMBERS: [f32; 9] = [0.0, 0.0, 0.0, 0.0, 0.5, 1.0, 0.0, 1.0, 2.0];
const WALL: [f32; 4] = [-1.0, 1.0, 1.0, 1.0];
const LINE: [f32; 4] = [0.0, -1.0, 1.0, 0.0];

pub fn records() -> Vec<Named> {
    let mut records = missing();
    records.extend(not_finite());
    records.extend(at_ends());
    records.extend(beyond());
    records.extend(directions());
    records
}

/// The whole scene behind its length.
pub fn scene() -> Vec<u8> {
    let mut rest = vec![1];
    push(&mut rest, &NUMBERS);
    rest.extend([1, 2, 2]);
    push(&mut rest, &WALL);
    rest.push(1);
    push(&mut rest, &LINE);
    rest
}

pub fn push(rest: &mut Vec<u8>, numbers: &[f32]) {
    for number in numbers {
        rest.extend(number.to_bits().to_be_bytes());
    }
}

/// With a number in the place of another.
pub fn with(mut rest: Vec<u8>, place: usize, number: f32) -> Vec<u8> {
    rest[place..place + 4].copy_from_slice(&number.to_bits().to_be_bytes());
    rest
}

/// The scene up to every byte, its length put right.
fn missing() -> Vec<Named> {
    let whole = scene();
    let cut = |kept: usize| {
        (
            "bytes missing at each place",
            whole[..kept].to_vec(),
            Some(2),
        )
    };
    let mut records: Vec<Named> = (0..whole.len()).map(cut).collect();
    records.push(("the whole scene", whole, None));
    records
}

fn not_finite() -> Vec<Named> {
    let mut places: Vec<usize> = FIELDS.iter().map(|(place, ..)| *place).collect();
    places.extend([DIRECTION, DIRECTION + 4]);
    let signalling = f32::from_bits(0xFF80_0001);
    let numbers = [f32::NAN, signalling, f32::INFINITY, f32::NEG_INFINITY];
    let mut records = Vec::new();
    for place in places {
        for number in numbers {
            records.extend(refused("a NaN or infinity at each place", place, number));
        }
    }
    records
}

fn at_ends() -> Vec<Named> {
    let row = "each end of each range";
    let ends = |(place, low, high): &Field| [(*place, *low), (*place, *high)];
    let mut ends: Vec<(usize, f32)> = FIELDS.iter().flat_map(ends).collect();
    ends.extend([(MARGIN, -0.0), (LIMIT, -0.0)]);
    let admitted = |(place, number)| (row, with(scene(), place, number), None);
    ends.into_iter().map(admitted).collect()
}

fn beyond() -> Vec<Named> {
    let row = "the next f32 beyond each end";
    let mut records = Vec::new();
    for (place, low, high) in FIELDS {
        records.extend(refused(row, place, low.next_down()));
        records.extend(refused(row, place, high.next_up()));
    }
    records
}

/// The number ends the record, then the rest of the scene follows it.
fn refused(row: &'static str, place: usize, number: f32) -> [Named; 2] {
    let whole = with(scene(), place, number);
    let cut = whole[..place + 4].to_vec();
    [(row, cut, Some(6)), (row, whole, Some(6))]
}

/// By the dot with itself. A component has no bound of its own, so that the greatest gets 7.
fn directions() -> Vec<Named> {
    let mut random = Random::new(SEED);
    let mut along = |dot: f32| {
        let direction = direction_with_dot(&mut random, dot);
        with(
            with(scene(), DIRECTION, direction.x),
            DIRECTION + 4,
            direction.y,
        )
    };
    let (at, past) = (
        "each end of the band",
        "the next f32 beyond each end of the band",
    );
    vec![
        (at, along(BAND_LOW), None),
        (at, along(BAND_HIGH), None),
        (past, along(BAND_LOW.next_down()), Some(7)),
        (past, along(BAND_HIGH.next_up()), Some(7)),
        (
            "a direction of great components",
            with(scene(), DIRECTION, f32::MAX),
            Some(7),
        ),
        (
            "a direction of great components",
            with(scene(), DIRECTION + 4, f32::MIN),
            Some(7),
        ),
        (
            "a direction of no length",
            with(scene(), DIRECTION, 0.0),
            Some(7),
        ),
    ]
}
