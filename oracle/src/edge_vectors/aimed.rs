//! Agents and velocities put where a test is about to turn.

use counters::EdgeBranch;
use glam::Vec2;

use super::layouts::{corner, horizon, lattice, scattered, star};
use crate::encounters::{edge_lines, Encounter};
use crate::line_lists::whole_vector;
use crate::list_vectors::judge::REACH;
use crate::random::Random;

/// A vertex just the margin away, and an edge that leaves it nearly across: the tests of the edge and of its vertex
/// are all about to turn, by a rounding or by little more.
pub fn at_margin(random: &mut Random) -> Encounter {
    let any = 0.1 + random.within(2.0).abs();
    let distance = random.pick(&[0.5, 1.0, any, any, any]);
    let position = if random.one_in(2) {
        Vec2::ZERO
    } else {
        random.vector_within(2.0)
    };
    let toward = random.direction();
    let vertex = position + toward * distance;
    let vertex = nudged_vector(random, vertex);
    let lean = random.pick(&[0.0, 0.0, 1e-7, 1e-4, 1e-2, 0.5]);
    let length = 0.1 + random.within(2.0).abs();
    let length = random.signed(length);
    let across = (toward.perp() + toward * random.within(lean)) * length;
    let other = vertex + across;
    let other = nudged_vector(random, other);
    let mut vertices = vec![vertex, other];
    if random.one_in(2) {
        vertices.reverse();
    }
    if random.one_in(3) {
        vertices.push(other + random.vector_within(2.0));
    }
    if random.one_in(3) {
        vertices.insert(0, vertex + random.vector_within(2.0));
    }
    let encounter = Encounter {
        closed: random.one_in(3),
        vertices,
        position,
        velocity: random.vector_within(2.0),
        margin: nudged(random, distance),
        horizon: horizon(random),
    };
    if random.one_in(2) {
        aim(random, encounter)
    } else {
        encounter
    }
}

/// Searched for among those: by its roundings the edge is farther away than the margin, but one of its vertices, apart
/// from the other, is not, and a leg is the root of a number below 0.
pub fn inside_by_rounding(random: &mut Random) -> Encounter {
    loop {
        let encounter = at_margin(random);
        let found =
            edge_lines(&encounter).is_ok_and(|made| made.branches.took(EdgeBranch::LegOfNegative));
        if found {
            return encounter;
        }
    }
}

/// The agent stands on a vertex, on an edge, or where an edge would go on beyond its ends.
pub fn in_line(random: &mut Random) -> Encounter {
    let make = random.pick(&[lattice, lattice, star, scattered, corner]);
    let mut encounter = make(random);
    let (left, right) = edge(random, &encounter);
    let t = random.pick(&[0.0, 1.0, 0.5, 0.25, -1.0, -0.5, -2.0, 1.5, 2.0, 3.0]);
    encounter.position = left + (right - left) * t;
    if random.one_in(4) {
        encounter.position = nudged_vector(random, encounter.position);
    }
    if random.one_in(4) {
        encounter.margin = (right - left).length() * random.pick(&[0.5, 1.0, 2.0]);
    }
    if random.one_in(2) {
        aim(random, encounter)
    } else {
        encounter
    }
}

/// A wall along an axis whose next edge comes nearer by about the cover test's 0.00001.
pub fn barely_covered(random: &mut Random) -> Encounter {
    let horizon = random.pick(&[0.5, 1.0, 1.0, 2.0]);
    let ahead = random.pick(&[0.0625, 0.125, 0.25, 1.0]);
    let nearer = nudged(random, ahead - 0.00001 * horizon);
    let margin = ahead * random.pick(&[0.0, 0.25, 0.5, 0.75]);
    let mut vertices = vec![
        Vec2::new(-1.0, ahead),
        Vec2::new(1.0, ahead),
        Vec2::new(2.0, nearer),
    ];
    if random.one_in(2) {
        vertices.push(Vec2::new(3.0, random.pick(&[nearer, ahead])));
    }
    if random.one_in(2) {
        vertices = vertices.into_iter().map(Vec2::perp).collect();
    }
    Encounter {
        closed: random.one_in(4),
        vertices,
        position: Vec2::ZERO,
        velocity: random.pick(&[Vec2::ZERO, Vec2::new(0.01, 0.0)]),
        margin,
        horizon,
    }
}

/// Turns the velocity to a place near a cut off edge: one of its ends, between or beyond them, in their shadow.
pub fn aim(random: &mut Random, encounter: Encounter) -> Encounter {
    let (left, right) = edge(random, &encounter);
    let left = (left - encounter.position) / encounter.horizon;
    let right = (right - encounter.position) / encounter.horizon;
    let reach = encounter.margin / encounter.horizon;
    let part = random.within(1.0).abs();
    let (short, wide) = (random.within(1.0), random.within(3.0));
    let between = left + (right - left) * random.pick(&[0.0, 1.0, 0.5, part]);
    let velocity = match random.below(10) {
        0 => between,
        1 => nudged_vector(random, between),
        2 => between + random.direction() * reach,
        3 => between + random.direction() * (reach * wide),
        4 => between * (1.0 + wide.abs()) + between.perp() * (short * 0.5),
        5 => between * short.abs(),
        6 => left + (left - right) * wide.abs(),
        7 => right + (right - left) * wide.abs(),
        8 => between + whole_vector(random, 1),
        _ => Vec2::ZERO,
    };
    Encounter {
        velocity: Vec2::new(
            velocity.x.clamp(-REACH, REACH),
            velocity.y.clamp(-REACH, REACH),
        ),
        ..encounter
    }
}

/// The ends of one of its edges; of an edge without length where there are no vertices.
fn edge(random: &mut Random, encounter: &Encounter) -> (Vec2, Vec2) {
    let vertices = &encounter.vertices;
    if vertices.is_empty() {
        return (Vec2::ZERO, Vec2::ZERO);
    }
    let left = random.below(vertices.len());
    (vertices[left], vertices[(left + 1) % vertices.len()])
}

/// Up to two f32s up or down, but not out of what is admitted; zeros and subnormal numbers stay.
pub fn nudged(random: &mut Random, number: f32) -> f32 {
    if number.abs() < f32::MIN_POSITIVE {
        return number;
    }
    f32::from_bits(number.to_bits() - 2 + random.below(5) as u32).clamp(-REACH, REACH)
}

pub fn nudged_vector(random: &mut Random, vector: Vec2) -> Vec2 {
    Vec2::new(nudged(random, vector.x), nudged(random, vector.y))
}
