//! Encounters of an agent with an obstacle, and the lines that both builds give for them.

use std::fmt;

use counters::EdgeBranches;
use glam::Vec2;

use crate::words::{hex, hex_vector, same_vector};

#[derive(Clone)]
pub struct Encounter {
    pub closed: bool,
    pub vertices: Vec<Vec2>,
    pub position: Vec2,
    pub velocity: Vec2,
    pub margin: f32,
    pub horizon: f32,
}

/// Point and direction.
pub type EdgeLine = (Vec2, Vec2);

/// What both builds say of an encounter.
pub struct EdgeLines {
    /// The plain build's lines.
    pub lines: Vec<EdgeLine>,
    /// The left vertex of the edge that made each of them, as the counted build noted it.
    pub makers: Vec<usize>,
    pub branches: EdgeBranches,
}

/// One text for both builds, whose types differ though their names agree.
macro_rules! edge_lines {
    ($build:ident, $encounter:expr) => {{
        let agent = $build::Agent {
            position: $encounter.position,
            velocity: $encounter.velocity,
            radius: 0.0,
            avoidance_responsibility: 1.0,
        };
        let vertices = $encounter.vertices.clone();
        let obstacle = if $encounter.closed {
            $build::Obstacle::Closed { vertices }
        } else {
            $build::Obstacle::Open { vertices }
        };
        let (margin, horizon) = ($encounter.margin, $encounter.horizon);
        $build::debug::get_lines_for_agent_to_obstacle(&agent, &obstacle, margin, horizon)
            .iter()
            .map(|line| (line.point, line.direction))
            .collect::<Vec<EdgeLine>>()
    }};
}

/// Asks both builds. Fails where their bits differ.
pub fn edge_lines(encounter: &Encounter) -> Result<EdgeLines, String> {
    let lines = edge_lines!(dodgy_plain, encounter);
    counters::reset();
    let counted = edge_lines!(dodgy_counted, encounter);
    let branches = counters::edges_taken();
    let makers = counters::makers::noted();
    let agree = lines.len() == counted.len()
        && lines.len() == makers.len()
        && lines
            .iter()
            .zip(&counted)
            .all(|(a, b)| same_vector(a.0, b.0) && same_vector(a.1, b.1));
    if !agree {
        return Err(format!("plain {lines:?}, counted {counted:?}: {encounter}"));
    }
    Ok(EdgeLines {
        lines,
        makers,
        branches,
    })
}

impl fmt::Display for Encounter {
    fn fmt(&self, output: &mut fmt::Formatter) -> fmt::Result {
        write!(
            output,
            "{} position {} velocity {} margin {} horizon {} vertices",
            if self.closed { "closed" } else { "open" },
            hex_vector(self.position),
            hex_vector(self.velocity),
            hex(self.margin),
            hex(self.horizon),
        )?;
        for vertex in &self.vertices {
            write!(output, " {}", hex_vector(*vertex))?;
        }
        Ok(())
    }
}
