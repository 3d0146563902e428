//! Moves over the obstacles of drawn scenes, aimed where the check is about to turn: at vertices, through them, along
//! edges, just short of them. One in four is lent with up to three faults.

use glam::Vec2;

use super::Call;
use crate::lent::{self, Lent};
use crate::list_vectors::judge::REACH;
use crate::list_vectors::refused::too_large;
use crate::random::Random;
use crate::scene_vectors;
use crate::scenes::Scene;

type Aim = fn(&mut Random, &Scene) -> [Vec2; 2];
type Spoil = fn(&mut Random, &mut Call);

const AIMS: [(&str, Aim); 10] = [
    ("drawn: as the cart moves", |_, scene| {
        [scene.position, scene.position + scene.velocity]
    }),
    ("drawn: through the scene", |random, scene| {
        let (middle, half) = (anywhere(random, scene), random.vector_within(24.0));
        [middle + half, middle - half]
    }),
    ("drawn: to a vertex", |random, scene| {
        [anywhere(random, scene), vertex(random, scene)]
    }),
    ("drawn: from a vertex", |random, scene| {
        [vertex(random, scene), anywhere(random, scene)]
    }),
    ("drawn: from a vertex to a vertex", |random, scene| {
        [vertex(random, scene), vertex(random, scene)]
    }),
    ("drawn: through a vertex", |random, scene| {
        let half = Vec2::new(random.whole(4), random.whole(4));
        let middle = vertex(random, scene);
        [middle + half, middle - half]
    }),
    (
        "drawn: to the middle of an edge, or just not",
        |random, scene| {
            let [left, right] = edge(random, scene);
            let to = (left + right) * 0.5;
            let x = random.pick(&[to.x.next_down(), to.x, to.x.next_up()]);
            let y = random.pick(&[to.y.next_down(), to.y, to.y.next_up()]);
            [anywhere(random, scene), Vec2::new(x, y)]
        },
    ),
    (
        "drawn: along an edge, as far as rounding lets it",
        |random, scene| {
            let [left, right] = edge(random, scene);
            let along = (right - left) * random.within(2.0);
            [left - along, right + along]
        },
    ),
    ("drawn: of no length", |random, scene| {
        let [left, right] = edge(random, scene);
        let on = left + (right - left) * random.pick(&[0.0, 0.5, 1.0]);
        [on; 2]
    }),
    ("drawn: the ends of the range", |random, _| {
        let mut component = || random.extreme(REACH);
        let from = Vec2::new(component(), component());
        [from, Vec2::new(component(), component())]
    }),
];

const FAULTY: &str = "drawn: with up to three faults";

const SPOILS: [Spoil; 8] = [
    position,
    |random, call| lent::vertex_number(random, &mut call.lent),
    |random, call| lent::kind(random, &mut call.lent),
    |random, call| lent::own_count(random, &mut call.lent),
    |random, call| lent::obstacle_count(random, &mut call.lent),
    |random, call| lent::kinds_lent(random, &mut call.lent),
    |random, call| lent::counts_lent(random, &mut call.lent),
    |random, call| lent::vertices_lent(random, &mut call.lent),
];

/// The rows that calls belong to.
pub fn rows() -> Vec<&'static str> {
    AIMS.iter().map(|(row, _)| *row).chain([FAULTY]).collect()
}

/// The row that it belongs to, and the call.
pub fn call(random: &mut Random) -> (&'static str, Call) {
    let scene = scene_vectors::drawn(random);
    let (row, aim) = random.pick(&AIMS);
    let [from, to] = aim(random, &scene);
    let mut call = Call {
        from,
        to,
        lent: Lent::of(&scene.obstacles),
    };
    if !random.one_in(4) {
        return (row, call);
    }
    for _ in 0..1 + random.below(3) {
        let spoil = random.pick(&SPOILS);
        spoil(random, &mut call);
    }
    (FAULTY, call)
}

fn position(random: &mut Random, call: &mut Call) {
    let number = too_large(random, REACH);
    let position = if random.one_in(2) {
        &mut call.from
    } else {
        &mut call.to
    };
    *position = random.pick(&[Vec2::new(number, position.y), Vec2::new(position.x, number)]);
}

/// Where the cart is, or not far from it.
fn anywhere(random: &mut Random, scene: &Scene) -> Vec2 {
    let near = scene.position + random.vector_within(10.0);
    random.pick(&[scene.position, near, near])
}

/// Of any obstacle; where there is none, as if it stood near the cart.
fn vertex(random: &mut Random, scene: &Scene) -> Vec2 {
    let [left, _] = edge(random, scene);
    left
}

/// From a vertex to the next; where there is no obstacle, as if it stood near the cart.
fn edge(random: &mut Random, scene: &Scene) -> [Vec2; 2] {
    let near = [anywhere(random, scene), anywhere(random, scene)];
    if scene.obstacles.is_empty() {
        return near;
    }
    let vertices = &scene.obstacles[random.below(scene.obstacles.len())].vertices;
    if vertices.is_empty() {
        return near;
    }
    let place = random.below(vertices.len());
    [vertices[place], vertices[(place + 1) % vertices.len()]]
}
