//! Scenes to measure speed by, of one kind and all of them admitted: a refused one costs little, and would flatter.

use std::f32::consts::TAU;

use dodgy_plain::debug::Line;
use glam::Vec2;

use crate::builds::solve_counted;
use crate::line_lists::LineList;
use crate::random::Random;
use crate::records::answers::Answer;
use crate::scene_vectors::{ask_scene, drawn, full, with_agents};
use crate::scenes::{Obstacle, Scene};

const SEED: u64 = 0x7370_6565_64;
/// A ring has so many vertices at most; more vertices are more rings.
const RING: usize = 64;

pub struct Set {
    pub records: Vec<u8>,
    pub answers: Vec<u8>,
    pub probes: u64,
}

/// `count` scenes of the kind, and their answers. What `size` counts is the kind's to say.
pub fn set(kind: &str, size: usize, count: usize) -> Result<Set, String> {
    let mut random = Random::new(SEED);
    let mut set = Set {
        records: Vec::new(),
        answers: Vec::new(),
        probes: 0,
    };
    let mut made = 0;
    while made < count {
        let scene = match kind {
            "tiny" => lone(&mut random),
            "plain" => drawn(&mut random),
            "heavy" => with_agents(&mut random),
            "full" => full(&mut random),
            "again" => again(&mut random, size),
            "relaxing" => relaxing(&mut random, size),
            "edges" => among_edges(&mut random, size),
            _ => return Err(format!("{kind}: no kind of scenes")),
        };
        let case = ask_scene(scene)?;
        let Answer::Velocity(velocity) = case.answer() else {
            continue;
        };
        set.records.extend(case.record());
        set.answers.extend(case.answer().record());
        set.probes += u64::from(velocity.probes);
        made += 1;
    }
    Ok(set)
}

/// A cart with nothing beside it: no lines.
fn lone(random: &mut Random) -> Scene {
    Scene {
        position: random.vector_within(2.0),
        velocity: random.vector_within(1.0),
        margin: 0.5,
        horizon: 2.0,
        wish: random.vector_within(2.0),
        limit: 1.0,
        obstacles: Vec::new(),
        lines: Vec::new(),
        neighbours: None,
    }
}

/// `size` neighbour lines, each of which takes a little from what those before it left, so that each is solved again
/// over all of them.
fn again(random: &mut Random, size: usize) -> Scene {
    let scene = lone(random);
    let mut list = LineList {
        wish: Vec2::new(random.within(0.1), 1.0),
        limit: 1.0,
        rigid_count: 0,
        lines: Vec::new(),
    };
    for _ in 0..size {
        let (Ok(point) | Err(point)) = solve_counted(&list).0;
        let direction = -(Vec2::new(1.0, 0.0) + random.vector_within(0.25)).normalize();
        list.lines.push(Line {
            point: point + direction.perp() * (0.5 / size as f32),
            direction,
        });
    }
    Scene {
        wish: list.wish,
        lines: list
            .lines
            .iter()
            .map(|line| (line.point, line.direction))
            .collect(),
        ..scene
    }
}

/// `size` neighbour lines, each farther off than those before it and all beyond the limit: the first fails, and each is relaxed.
fn relaxing(random: &mut Random, size: usize) -> Scene {
    let scene = lone(random);
    let ahead = random.direction();
    let lines = (0..size).map(|place| {
        let direction = (ahead + random.vector_within(0.25)).normalize();
        (direction.perp() * (2.0 + 0.25 * place as f32), direction)
    });
    let lines = lines.collect();
    Scene { lines, ..scene }
}

/// The cart inside of rings of `size` vertices in all, the widest first: each edge is seen and has its line.
fn among_edges(random: &mut Random, size: usize) -> Scene {
    let rings = size.div_ceil(RING);
    let turn = random.within(TAU);
    let obstacles = (0..rings).map(|ring| Obstacle {
        closed: true,
        vertices: ring_of(size / rings, turn, (3 + rings - ring) as f32),
    });
    let obstacles = obstacles.collect();
    Scene {
        position: Vec2::ZERO,
        margin: 0.125,
        obstacles,
        ..lone(random)
    }
}

/// Clockwise, so that it keeps a cart in.
fn ring_of(count: usize, turn: f32, radius: f32) -> Vec<Vec2> {
    let vertex = |place| {
        let angle = turn - TAU * place as f32 / count as f32;
        Vec2::new(angle.cos(), angle.sin()) * radius
    };
    (0..count).map(vertex).collect()
}
