//! A call as a record has it: the obstacle has `count` vertices, and the numbers are to be theirs, two a vertex.

use glam::Vec2;

use crate::encounters::Encounter;
use crate::random::Random;

pub const CLOSED: u32 = 1;
pub const OPEN: u32 = 2;

/// As many vertices as the obstacles of a scene may have together.
pub const SCENE_VERTICES: usize = 192;

pub struct Call {
    pub kind: u32,
    pub numbers: Vec<f32>,
    pub count: u64,
    pub position: Vec2,
    pub velocity: Vec2,
    pub margin: f32,
    pub horizon: f32,
}

impl Call {
    /// The numbers are the obstacle's vertices and no others.
    pub fn new(encounter: &Encounter) -> Call {
        Call {
            kind: if encounter.closed { CLOSED } else { OPEN },
            numbers: encounter
                .vertices
                .iter()
                .flat_map(|vertex| [vertex.x, vertex.y])
                .collect(),
            count: encounter.vertices.len() as u64,
            position: encounter.position,
            velocity: encounter.velocity,
            margin: encounter.margin,
            horizon: encounter.horizon,
        }
    }

    /// With one to three numbers too many, or as many too few.
    pub fn uneven(random: &mut Random, encounter: &Encounter) -> Call {
        let mut call = Call::new(encounter);
        for _ in 0..1 + random.below(3) {
            call.numbers.push(random.within(4.0));
        }
        if random.one_in(2) {
            call.count += call.numbers.len() as u64 - 2 * call.count;
        }
        call
    }

    /// Of a call that has no fault.
    pub fn to_encounter(&self) -> Encounter {
        Encounter {
            closed: self.kind == CLOSED,
            vertices: self
                .numbers
                .chunks_exact(2)
                .map(|vertex| Vec2::new(vertex[0], vertex[1]))
                .collect(),
            position: self.position,
            velocity: self.velocity,
            margin: self.margin,
            horizon: self.horizon,
        }
    }
}
