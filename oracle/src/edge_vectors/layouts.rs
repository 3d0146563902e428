//! Obstacles of all shapes, each with an agent beside it.

use glam::Vec2;

use super::aimed::{aim, nudged, nudged_vector};
use super::judge::{LONGEST_HORIZON, MOST_VERTICES, SHORTEST_HORIZON};
use crate::encounters::Encounter;
use crate::line_lists::whole_vector;
use crate::list_vectors::judge::{LONGEST, REACH};
use crate::random::Random;

/// Cosine and sine of one step round regular polygons of 3, 4, 5, 6 and 8 vertices, and of the most there may be.
const STEPS: [(usize, f64, f64); 5] = [
    (3, -0.5, 0.8660254037844386),
    (4, 0.0, 1.0),
    (5, 0.30901699437494745, 0.9510565162951535),
    (6, 0.5, 0.8660254037844386),
    (8, 0.7071067811865476, 0.7071067811865476),
];
const STEP_OF_MOST: (usize, f64, f64) = (
    MOST_VERTICES as usize,
    0.995_184_726_672_196_9,
    0.098_017_140_329_560_6,
);

/// Few different values, so that ties, equal vertices and edges in line are common.
pub fn lattice(random: &mut Random) -> Encounter {
    let vertices = vertices_of(random, |random| whole_vector(random, 3));
    let position = if random.one_in(2) {
        whole_vector(random, 3)
    } else {
        whole_vector(random, 6) * 0.5
    };
    let margin = random.pick(&[0.0, 0.5, 1.0, 2.0, 3.0, 5.0, 1.4142135]);
    let horizon = random.pick(&[0.5, 1.0, 1.0, 2.0, 4.0]);
    let velocity = whole_vector(random, 3);
    beside(random, vertices, position, velocity, margin, horizon)
}

pub fn scattered(random: &mut Random) -> Encounter {
    let vertices = vertices_of(random, |random| random.vector_within(4.0));
    let position = random.vector_within(4.0);
    let velocity = random.vector_within(4.0);
    let margin = margin(random);
    let horizon = horizon(random);
    beside(random, vertices, position, velocity, margin, horizon)
}

/// Round a centre, near or far from it in turn: edges that do not cross, in either sense, with vertices of both kinds.
pub fn star(random: &mut Random) -> Encounter {
    let step = random.pick(&STEPS);
    let least = random.pick(&[0.3, 1.0, 1.9]);
    let vertices = round(random, step, |random| {
        least + random.within(2.0 - least).abs()
    });
    let size = random.pick(&[0.5, 2.0, 4.0]);
    let position = random.vector_within(size);
    let velocity = random.vector_within(2.0);
    let margin = margin(random);
    let horizon = horizon(random);
    beside(random, vertices, position, velocity, margin, horizon)
}

/// A regular polygon with the agent at its centre; the margin reaches just its vertices, just its edges, or neither.
pub fn ring(random: &mut Random) -> Encounter {
    let step = random.pick(&STEPS);
    let radius = random.pick(&[1.0, 2.0, 0.7]);
    let vertices = round(random, step, |_| radius);
    let apothem = (vertices[0] + vertices[1]).length() / 2.0;
    let margin = random.pick(&[radius, apothem, apothem, radius / 2.0, radius * 1.5, 0.0]);
    let margin = nudged(random, margin);
    let position = if random.one_in(2) {
        Vec2::ZERO
    } else {
        random.vector_within(radius)
    };
    let horizon = horizon(random);
    let velocity = random.vector_within(2.0);
    beside(random, vertices, position, velocity, margin, horizon)
}

/// The agent is near a corner, about the margin away from it.
pub fn corner(random: &mut Random) -> Encounter {
    let center = whole_vector(random, 1);
    let distance = 0.25 + random.within(1.0).abs();
    let mut vertices = vec![center + arm(random), center, center + arm(random)];
    if random.one_in(2) {
        vertices.push(vertices[2] + arm(random));
    }
    if random.one_in(2) {
        vertices.insert(0, vertices[0] + arm(random));
    }
    let position = center + random.direction() * distance;
    let factor = random.pick(&[0.5, 0.9, 1.0, 1.1, 1.5, 3.0]);
    let margin = distance * factor;
    let horizon = horizon(random);
    let velocity = random.vector_within(2.0);
    beside(random, vertices, position, velocity, margin, horizon)
}

fn arm(random: &mut Random) -> Vec2 {
    let length = 0.1 + random.within(3.0).abs();
    let direction = if random.one_in(2) {
        random.direction()
    } else {
        random.pick(&[
            Vec2::new(1.0, 0.0),
            Vec2::new(0.0, 1.0),
            Vec2::new(-1.0, 0.0),
            Vec2::new(0.0, -1.0),
        ])
    };
    direction * length
}

/// Vertices that stand twice, some with another sign of a zero; vertices in the middle of an edge; edges there and back.
pub fn doubled(random: &mut Random) -> Encounter {
    let make = random.pick(&[lattice, lattice, star, corner]);
    let mut encounter = make(random);
    let vertices = &mut encounter.vertices;
    for _ in 0..1 + random.below(2) {
        if vertices.is_empty() {
            break;
        }
        let place = random.below(vertices.len());
        let (here, next) = (vertices[place], vertices[(place + 1) % vertices.len()]);
        match random.below(5) {
            0 => vertices.insert(place, here),
            1 => vertices.insert(place + 1, (here + next) * 0.5),
            2 => vertices.insert(place + 1, here - (next - here)),
            3 => vertices.insert(place, next),
            _ => {
                vertices[place].x = 0.0;
                vertices.insert(place, Vec2::new(-0.0, here.y));
            }
        }
    }
    with_aim(random, encounter)
}

/// As `doubled`, but where a vertex would be the one before it again, it is the next f32 in one component.
pub fn nearly_doubled(random: &mut Random) -> Encounter {
    let mut encounter = doubled(random);
    let vertices = &mut encounter.vertices;
    for place in 0..vertices.len() {
        let before = vertices[(place + vertices.len() - 1) % vertices.len()];
        while vertices[place] == before && vertices.len() > 1 {
            let vertex = &mut vertices[place];
            let number = if random.one_in(2) { &mut vertex.x } else { &mut vertex.y };
            *number = if random.one_in(2) { number.next_up() } else { number.next_down() };
        }
    }
    encounter
}

/// Coordinates whose squares are subnormal or round to 0, beside numbers of any size.
pub fn tiny(random: &mut Random) -> Encounter {
    let scale = random.magnitude(4e-24, 1e-20).abs();
    let mut encounter = if random.one_in(2) {
        lattice(random)
    } else {
        scattered(random)
    };
    for vertex in &mut encounter.vertices {
        *vertex = *vertex * scale;
    }
    encounter.position = encounter.position * scale;
    if random.one_in(2) {
        encounter.velocity = encounter.velocity * scale;
    }
    encounter.margin = match random.below(4) {
        0 => 0.0,
        1 => -0.0,
        2 => encounter.margin * scale,
        _ => encounter.margin * random.pick(&[1.0, 1e-10]),
    };
    if random.one_in(4) {
        encounter.position = whole_vector(random, 1);
    }
    with_aim(random, encounter)
}

/// Edges so short, or so far away, that their ends fall together once the agent's position is taken off.
pub fn vanishing(random: &mut Random) -> Encounter {
    let size = random.magnitude(1e-10, 1e-2).abs();
    let vertices = vertices_of(random, |random| random.vector_within(size));
    let far = random.pick(&[1.0, 1000.0, REACH]);
    let position = Vec2::new(random.within(far), random.signed(far));
    let velocity = random.vector_within(far);
    let margin = random.pick(&[0.0, 0.5, 1.0, far.min(LONGEST)]);
    let horizon = horizon(random);
    beside(random, vertices, position, velocity, margin, horizon)
}

/// Numbers at the ends of what is admitted, and the smallest there are.
pub fn extreme(random: &mut Random) -> Encounter {
    let vertices = vertices_of(random, |random| extreme_vector(random));
    let position = extreme_vector(random);
    let velocity = extreme_vector(random);
    let margin = random.extreme(LONGEST).abs();
    let margin = if random.one_in(8) { -0.0 } else { margin };
    let any = random.magnitude(SHORTEST_HORIZON, LONGEST_HORIZON).abs();
    let horizon = random.pick(&[SHORTEST_HORIZON, 1.0, any, LONGEST_HORIZON]);
    beside(random, vertices, position, velocity, margin, horizon)
}

fn extreme_vector(random: &mut Random) -> Vec2 {
    Vec2::new(random.extreme(REACH), random.extreme(REACH))
}

/// As many vertices as there may be: round the agent in either sense, round another place, or anywhere.
pub fn long(random: &mut Random) -> Encounter {
    let vertices = match random.below(4) {
        0 => round(random, STEP_OF_MOST, |_| 4.0),
        1 => round(random, STEP_OF_MOST, |random| 3.0 + random.within(1.0)),
        2 => (0..MOST_VERTICES)
            .map(|_| whole_vector(random, 4))
            .collect(),
        _ => (0..MOST_VERTICES)
            .map(|_| random.vector_within(4.0))
            .collect(),
    };
    let size = random.pick(&[0.5, 6.0]);
    let position = random.vector_within(size);
    let margin = random.pick(&[0.0, 0.125, 0.5, 1.0]);
    let horizon = random.pick(&[0.5, 1.0, 4.0]);
    let velocity = random.vector_within(1.0);
    beside(random, vertices, position, velocity, margin, horizon)
}

/// As many vertices as there may be, clockwise round the origin at this distance: a loop that keeps agents in.
pub fn full_loop(random: &mut Random, radius: f32) -> Vec<Vec2> {
    let mut vertices = round(random, STEP_OF_MOST, |_| radius);
    let (first, second) = (vertices[0], vertices[1]);
    if first.x * second.y > first.y * second.x {
        vertices.reverse();
    }
    vertices
}

/// Numbers that no scene holds, NaNs and infinities too: the Rust computes with them, and so does a call.
pub fn any_numbers(random: &mut Random) -> Encounter {
    let mut encounter = lattice(random);
    let replace = |random: &mut Random, number: &mut f32| {
        let far = random.magnitude(REACH, f32::MAX);
        let any = random.magnitude(0.0, f32::INFINITY);
        if random.one_in(4) {
            *number = random.pick(&[far, far, any, f32::INFINITY, -f32::INFINITY, f32::NAN]);
        }
    };
    for vertex in &mut encounter.vertices {
        replace(random, &mut vertex.x);
        replace(random, &mut vertex.y);
    }
    for number in [
        &mut encounter.position.x,
        &mut encounter.position.y,
        &mut encounter.velocity.x,
        &mut encounter.velocity.y,
        &mut encounter.margin,
        &mut encounter.horizon,
    ] {
        replace(random, number);
    }
    if random.one_in(16) {
        encounter.horizon = random.signed(0.0);
    }
    encounter
}

fn vertices_of(random: &mut Random, mut vertex: impl FnMut(&mut Random) -> Vec2) -> Vec<Vec2> {
    let count = random.pick(&[1, 2, 2, 3, 3, 3, 4, 4, 5, 6]);
    (0..count).map(|_| vertex(random)).collect()
}

/// One round of a regular polygon's directions from a random one on, in either sense.
fn round(
    random: &mut Random,
    step: (usize, f64, f64),
    mut radius: impl FnMut(&mut Random) -> f32,
) -> Vec<Vec2> {
    let (count, cosine, sine) = step;
    let sine = if random.one_in(2) { -sine } else { sine };
    let start = if random.one_in(2) {
        Vec2::new(1.0, 0.0)
    } else {
        random.direction()
    };
    let (mut x, mut y) = (f64::from(start.x), f64::from(start.y));
    let mut vertices = Vec::new();
    for _ in 0..count {
        vertices.push(Vec2::new(x as f32, y as f32) * radius(random));
        (x, y) = (x * cosine - y * sine, x * sine + y * cosine);
    }
    vertices
}

fn margin(random: &mut Random) -> f32 {
    let any = random.within(2.0).abs();
    random.pick(&[0.0, 0.25, 0.5, any, any, any])
}

pub fn horizon(random: &mut Random) -> f32 {
    let any = random.magnitude(0.125, 8.0).abs();
    random.pick(&[0.5, 1.0, 1.0, 2.0, any])
}

/// Closed, or open with the last vertices left out at times; with no vertices now and then. Half of the velocities are aimed.
fn beside(
    random: &mut Random,
    mut vertices: Vec<Vec2>,
    position: Vec2,
    velocity: Vec2,
    margin: f32,
    horizon: f32,
) -> Encounter {
    let closed = random.one_in(2);
    if !closed && vertices.len() > 2 && random.one_in(2) {
        vertices.truncate(2 + random.below(vertices.len() - 2));
    }
    if closed && random.one_in(400) {
        vertices.clear();
    }
    let position = if random.one_in(16) {
        nudged_vector(random, position)
    } else {
        position
    };
    let encounter = Encounter {
        closed,
        vertices,
        position,
        velocity,
        margin,
        horizon,
    };
    with_aim(random, encounter)
}

fn with_aim(random: &mut Random, encounter: Encounter) -> Encounter {
    if random.one_in(2) {
        aim(random, encounter)
    } else {
        encounter
    }
}
