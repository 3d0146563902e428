//! Scenes: an agent among obstacles and neighbours.

pub mod outcomes;
pub mod passes;
mod whole;

use std::fmt;

use glam::Vec2;

use crate::encounters::{EdgeLine, Encounter};
use crate::records;
use crate::words::hex_bytes;

#[derive(Clone)]
pub struct Scene {
    pub position: Vec2,
    pub velocity: Vec2,
    pub margin: f32,
    pub horizon: f32,
    pub wish: Vec2,
    pub limit: f32,
    pub obstacles: Vec<Obstacle>,
    /// Those of the neighbours.
    pub lines: Vec<EdgeLine>,
    /// The agents whose lines these are; none where the lines come ready made.
    pub neighbours: Option<Neighbours>,
}

#[derive(Clone)]
pub struct Obstacle {
    pub closed: bool,
    pub vertices: Vec<Vec2>,
}

/// Agents nearby, and all else that their lines depend on beside the agent's position and velocity.
#[derive(Clone)]
pub struct Neighbours {
    pub agents: Vec<dodgy_plain::Agent>,
    pub radius: f32,
    pub responsibility: f32,
    pub horizon: f32,
    pub time_step: f32,
}

impl Scene {
    /// The lines are those that the given lib.rs makes of the agents.
    pub fn among(self, neighbours: Neighbours) -> Scene {
        Scene {
            lines: whole::neighbour_lines(&self, &neighbours),
            neighbours: Some(neighbours),
            ..self
        }
    }

    /// The agent and one of the obstacles, the agent moving with the velocity.
    fn encounter(&self, obstacle: &Obstacle, velocity: Vec2) -> Encounter {
        Encounter {
            closed: obstacle.closed,
            vertices: obstacle.vertices.clone(),
            position: self.position,
            velocity,
            margin: self.margin,
            horizon: self.horizon,
        }
    }

    pub fn vertex_count(&self) -> usize {
        self.obstacles
            .iter()
            .map(|obstacle| obstacle.vertices.len())
            .sum()
    }
}

/// As its record in hex.
impl fmt::Display for Scene {
    fn fmt(&self, output: &mut fmt::Formatter) -> fmt::Result {
        write!(output, "{}", hex_bytes(&records::scene_record(self)))
    }
}
