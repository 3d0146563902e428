//! Scenes with as many obstacles, vertices and neighbour lines as there may be.

use glam::Vec2;

use super::layouts::{lines_of, obstacle};
use crate::edge_vectors::call::SCENE_VERTICES;
use crate::edge_vectors::judge::MOST_VERTICES;
use crate::edge_vectors::layouts::{full_loop, horizon};
use crate::line_lists::{random_list_of, whole_vector};
use crate::random::Random;
use crate::records::{MOST_NEIGHBOURS, MOST_OBSTACLES};
use crate::scenes::{Obstacle, Scene};

/// 16 obstacles of few vertices.
pub fn many_obstacles(random: &mut Random) -> Scene {
    let count = random.below(4);
    let scene = with_lines(random, count);
    let obstacles = (0..MOST_OBSTACLES)
        .map(|_| {
            let size = 1 + random.below(3);
            anywhere(random, size)
        })
        .collect();
    Scene { obstacles, ..scene }
}

/// 16 obstacles of 12 vertices, so 192 together.
pub fn many_vertices(random: &mut Random) -> Scene {
    let count = random.below(2);
    let scene = with_lines(random, count);
    let each = SCENE_VERTICES / MOST_OBSTACLES;
    let obstacles = (0..MOST_OBSTACLES)
        .map(|_| anywhere(random, each))
        .collect();
    Scene { obstacles, ..scene }
}

/// One obstacle of 64 vertices.
pub fn one_large(random: &mut Random) -> Scene {
    let count = random.below(3);
    let scene = with_lines(random, count);
    let obstacle = if random.one_in(2) {
        anywhere(random, MOST_VERTICES as usize)
    } else {
        obstacle(random.one_in(2), full_loop(random, 4.0))
    };
    Scene {
        obstacles: vec![obstacle],
        ..scene
    }
}

/// 64 neighbour lines, with an obstacle or none.
pub fn many_lines(random: &mut Random) -> Scene {
    let scene = with_lines(random, MOST_NEIGHBOURS);
    let obstacles = (0..random.below(2)).map(|_| anywhere(random, 3)).collect();
    Scene { obstacles, ..scene }
}

/// The longest record: 16 obstacles, 192 vertices, 64 neighbour lines.
pub fn longest(random: &mut Random) -> Scene {
    let lines = many_lines(random).lines;
    Scene {
        lines,
        ..many_vertices(random)
    }
}

/// Three loops of 64 vertices round the agent, each edge with its line, and 64 neighbour lines: 256 lines. Where the
/// outer loop comes first and the limit is beyond them, every loop has to be worked.
pub fn all_lines(random: &mut Random) -> Scene {
    let scene = with_lines(random, MOST_NEIGHBOURS);
    let radii = random.pick(&[[4.0, 5.0, 6.0], [6.0, 5.0, 4.0]]);
    let obstacles = radii.map(|radius| obstacle(true, full_loop(random, radius)));
    Scene {
        limit: random.pick(&[scene.limit, 100.0]),
        position: Vec2::ZERO,
        margin: random.pick(&[0.0, 0.125, 0.5]),
        velocity: random.vector_within(0.5),
        obstacles: obstacles.into(),
        ..scene
    }
}

/// The same with neighbour lines ever farther off, all in about one direction: each is relaxed, over all edge lines.
pub fn all_relaxed(random: &mut Random) -> Scene {
    let ahead = random.direction();
    let lines = (0..MOST_NEIGHBOURS).map(|place| {
        let direction = (ahead + random.vector_within(0.01)).normalize();
        (direction.perp() * (100 + 4 * place) as f32, direction)
    });
    let lines = lines.collect();
    Scene {
        limit: 50.0,
        lines,
        ..all_lines(random)
    }
}

fn with_lines(random: &mut Random, count: usize) -> Scene {
    let list = random_list_of(random, count);
    Scene {
        position: whole_vector(random, 2),
        velocity: random.vector_within(2.0),
        margin: random.pick(&[0.0, 0.25, 0.5, 1.0]),
        horizon: horizon(random),
        wish: list.wish,
        limit: list.limit,
        obstacles: Vec::new(),
        lines: lines_of(&list),
        neighbours: None,
    }
}

fn anywhere(random: &mut Random, count: usize) -> Obstacle {
    let center = random.vector_within(6.0);
    let vertices = (0..count).map(|_| center + random.vector_within(3.0));
    let vertices = vertices.collect();
    obstacle(random.one_in(2), vertices)
}
