//! Warehouse floors: shelves in rows with aisles between, a hall round them, gates across; carts nearby as neighbours,
//! whose lines the given lib.rs makes. Other scenes get such neighbours here as well.

use glam::Vec2;

use super::crowded;
use super::layouts::{self, obstacle};
use crate::line_lists::whole_vector;
use crate::random::Random;
use crate::records::MOST_NEIGHBOURS;
use crate::scenes::{Neighbours, Obstacle, Scene};

/// Where the floor's numbers come from: half of the floors have whole ones, so that carts stand in line with shelves.
struct Floor {
    corner: Vec2,
    shelf: Vec2,
    aisle: f32,
    columns: usize,
    rows: usize,
}

pub fn shelves(random: &mut Random) -> Scene {
    let floor = Floor::new(random);
    let mut obstacles = floor.shelves();
    if random.one_in(3) {
        obstacles.push(floor.hall());
    }
    if random.one_in(3) {
        obstacles.extend(floor.gate(random));
    }
    let position = floor.place(random);
    with_carts(random, position, obstacles)
}

/// A hall and its gate alone, with more carts.
pub fn gates(random: &mut Random) -> Scene {
    let floor = Floor::new(random);
    let mut obstacles = floor.gate(random);
    if random.one_in(2) {
        obstacles.insert(0, floor.hall());
    }
    let position = floor.place(random);
    with_carts(random, position, obstacles)
}

pub fn hurried_among_carts(random: &mut Random) -> Scene {
    let scene = layouts::hurried(random);
    among_carts(random, scene, 0.25)
}

pub fn covered_among_carts(random: &mut Random) -> Scene {
    let scene = layouts::covered_while_moving(random);
    among_carts(random, scene, 0.5)
}

pub fn fitted_among_carts(random: &mut Random) -> Scene {
    let scene = layouts::fitted(random);
    among_carts(random, scene, 0.25)
}

/// As many carts as there may be, some with as many edge lines too.
pub fn crowd(random: &mut Random) -> Scene {
    let make = random.pick(&[crowded::all_lines, crowded::many_vertices]);
    let scene = make(random);
    among(random, scene, 0.25, MOST_NEIGHBOURS)
}

impl Floor {
    fn new(random: &mut Random) -> Floor {
        let whole = random.one_in(2);
        let size = |random: &mut Random, low: f32, high: f32| {
            let middle = (low + high) / 2.0;
            if whole {
                middle
            } else {
                middle + random.within(high - middle)
            }
        };
        let near = whole_vector(random, 20);
        let far = random.vector_within(60_000.0);
        Floor {
            corner: random.pick(&[Vec2::ZERO, near, near, far]),
            shelf: Vec2::new(size(random, 2.0, 6.0), size(random, 0.5, 1.5)),
            aisle: size(random, 0.8, 3.2),
            columns: 1 + random.below(2),
            rows: 1 + random.below(3),
        }
    }

    fn step(&self) -> Vec2 {
        self.shelf + Vec2::new(self.aisle, self.aisle)
    }

    /// The corner opposite to the first, an aisle beyond the shelves.
    fn end(&self) -> Vec2 {
        let step = self.step();
        self.corner + Vec2::new(step.x * self.columns as f32, step.y * self.rows as f32)
    }

    /// Counter-clockwise, so solid.
    fn shelves(&self) -> Vec<Obstacle> {
        let step = self.step();
        let mut shelves = Vec::new();
        for row in 0..self.rows {
            for column in 0..self.columns {
                let low = self.corner + Vec2::new(step.x * column as f32, step.y * row as f32);
                shelves.push(obstacle(true, rectangle(low, low + self.shelf)));
            }
        }
        shelves
    }

    /// Clockwise, so that it keeps carts in.
    fn hall(&self) -> Obstacle {
        let beyond = Vec2::new(self.aisle, self.aisle);
        let mut vertices = rectangle(self.corner - beyond, self.end() + beyond);
        vertices.reverse();
        obstacle(true, vertices)
    }

    /// A wall across with a gap, or a wall with a corner and one across from it; open in either sense.
    fn gate(&self, random: &mut Random) -> Vec<Obstacle> {
        let (low, high) = (self.corner, self.end());
        let gap = self.aisle * random.pick(&[0.5, 0.75, 1.0]);
        let height = (low.y + high.y) / 2.0;
        let middle = (low.x + high.x) / 2.0;
        let mut left = vec![
            Vec2::new(low.x, height),
            Vec2::new(middle - gap / 2.0, height),
        ];
        let mut right = vec![
            Vec2::new(middle + gap / 2.0, height),
            Vec2::new(high.x, height),
        ];
        if random.one_in(2) {
            left.push(left[1] + Vec2::new(0.0, self.aisle));
        }
        if random.one_in(2) {
            left.reverse();
            right.reverse();
        }
        [left, right]
            .map(|vertices| obstacle(false, vertices))
            .into()
    }

    /// In the middle of an aisle, or anywhere.
    fn place(&self, random: &mut Random) -> Vec2 {
        let step = self.step();
        let along = random.within(self.end().x - self.corner.x).abs();
        let row = random.below(self.rows) as f32;
        let in_aisle = Vec2::new(along, step.y * row + self.shelf.y + self.aisle / 2.0);
        let size = self.end() - self.corner;
        let anywhere = Vec2::new(random.within(size.x).abs(), random.within(size.y).abs());
        self.corner + random.pick(&[in_aisle, in_aisle, anywhere])
    }
}

fn with_carts(random: &mut Random, position: Vec2, obstacles: Vec<Obstacle>) -> Scene {
    let radius = random.pick(&[0.25, 0.4, 0.5]);
    let free = random.vector_within(1.5);
    let along = Vec2::new(random.within(2.0), 0.0);
    let wish = random.vector_within(2.0);
    let ahead = along * 1.5;
    let scene = Scene {
        position,
        velocity: random.pick(&[free, along, along, Vec2::ZERO]),
        margin: random.pick(&[radius, radius, 0.0, 0.1, 1.0]),
        horizon: random.pick(&[0.25, 0.5, 1.0, 2.0, 4.0]),
        wish: random.pick(&[wish, ahead, ahead]),
        limit: random.pick(&[0.25, 0.5, 1.0, 1.5, 2.0]),
        obstacles,
        lines: Vec::new(),
        neighbours: None,
    };
    among_carts(random, scene, radius)
}

/// None at times.
fn among_carts(random: &mut Random, scene: Scene, radius: f32) -> Scene {
    let count = random.pick(&[0, 1, 1, 2, 3, 4, 6]);
    among(random, scene, radius, count)
}

fn among(random: &mut Random, scene: Scene, radius: f32, count: usize) -> Scene {
    let position = scene.position;
    let agents = (0..count).map(|_| cart(random, position, radius)).collect();
    scene.among(Neighbours {
        agents,
        radius,
        responsibility: 1.0,
        horizon: random.pick(&[0.5, 1.0, 2.0, 5.0]),
        time_step: random.pick(&[0.0166, 0.1, 0.25]),
    })
}

/// Up to three away; some overlap.
fn cart(random: &mut Random, position: Vec2, radius: f32) -> dodgy_plain::Agent {
    let distance = 0.2 + random.within(3.0).abs();
    dodgy_plain::Agent {
        position: position + random.direction() * distance,
        velocity: random.vector_within(2.0),
        radius: radius * random.pick(&[0.5, 1.0, 1.0, 2.0]),
        avoidance_responsibility: random.pick(&[1.0, 1.0, 0.5, 0.0, 3.0]),
    }
}

fn rectangle(low: Vec2, high: Vec2) -> Vec<Vec2> {
    vec![
        low,
        Vec2::new(high.x, low.y),
        high,
        Vec2::new(low.x, high.y),
    ]
}
