//! The given lib.rs asked for a whole scene: the velocity, and the lines of each pass that it ran.

use std::borrow::Cow;

use counters::passes::{self, Pass};
use glam::Vec2;

use super::{Neighbours, Scene};
use crate::encounters::EdgeLine;

pub struct Whole {
    pub velocity: Vec2,
    /// Of each pass, the neighbours' behind the obstacles'.
    pub lines: Vec<Vec<EdgeLine>>,
}

/// One text for both builds, whose types differ though their names agree.
macro_rules! agent {
    ($build:ident, $position:expr, $velocity:expr, $like:expr) => {
        $build::Agent {
            position: $position,
            velocity: $velocity,
            radius: $like.radius,
            avoidance_responsibility: $like.avoidance_responsibility,
        }
    };
}

macro_rules! whole {
    ($build:ident, $scene:expr, $neighbours:expr) => {{
        let own = own_agent($scene, $neighbours);
        let agents: Vec<Cow<$build::Agent>> = $neighbours
            .agents
            .iter()
            .map(|other| Cow::Owned(agent!($build, other.position, other.velocity, other)))
            .collect();
        let obstacles: Vec<Cow<$build::Obstacle>> = $scene
            .obstacles
            .iter()
            .map(|obstacle| {
                let vertices = obstacle.vertices.clone();
                Cow::Owned(if obstacle.closed {
                    $build::Obstacle::Closed { vertices }
                } else {
                    $build::Obstacle::Open { vertices }
                })
            })
            .collect();
        let options = $build::AvoidanceOptions {
            obstacle_margin: $scene.margin,
            time_horizon: $neighbours.horizon,
            obstacle_time_horizon: $scene.horizon,
        };
        let (velocity, data) = agent!($build, own.position, own.velocity, own)
            .compute_avoiding_velocity_with_debug(
                &agents,
                &obstacles,
                $scene.wish,
                $scene.limit,
                $neighbours.time_step,
                &options,
            );
        let lines = match data {
            $build::debug::DebugData::Satisfied { constraints } => vec![constraints],
            $build::debug::DebugData::Fallback {
                original_constraints,
                fallback_constraints,
            } => vec![original_constraints, fallback_constraints],
        };
        let pairs = |lines: &Vec<$build::debug::Line>| {
            let pair = |line: &$build::debug::Line| (line.point, line.direction);
            lines.iter().map(pair).collect::<Vec<EdgeLine>>()
        };
        Whole {
            velocity,
            lines: lines.iter().map(pairs).collect(),
        }
    }};
}

/// The unchanged files; none where there are lines that come ready made, which they do not take.
pub fn ask_plain(scene: &Scene) -> Option<Whole> {
    let neighbours = match &scene.neighbours {
        Some(neighbours) => neighbours.clone(),
        None if scene.lines.is_empty() => standing_for(&[]),
        None => return None,
    };
    Some(whole!(dodgy_plain, scene, &neighbours))
}

/// And what each pass counted.
pub fn ask_counted(scene: &Scene) -> (Whole, Vec<Pass>) {
    let ready_made = standing_for(&scene.lines);
    let neighbours = scene.neighbours.as_ref().unwrap_or(&ready_made);
    counters::reset();
    passes::take_lines_ready_made(scene.neighbours.is_none());
    let whole = whole!(dodgy_counted, scene, neighbours);
    (whole, passes::passes())
}

pub fn neighbour_lines(scene: &Scene, neighbours: &Neighbours) -> Vec<EdgeLine> {
    let own = own_agent(scene, neighbours);
    let line = |other| {
        let (horizon, step) = (neighbours.horizon, neighbours.time_step);
        let line = dodgy_plain::debug::line_for_neighbour(&own, other, horizon, step);
        (line.point, line.direction)
    };
    neighbours.agents.iter().map(line).collect()
}

fn own_agent(scene: &Scene, neighbours: &Neighbours) -> dodgy_plain::Agent {
    dodgy_plain::Agent {
        position: scene.position,
        velocity: scene.velocity,
        radius: neighbours.radius,
        avoidance_responsibility: neighbours.responsibility,
    }
}

/// Lines as the counted build takes them ready made.
fn standing_for(lines: &[EdgeLine]) -> Neighbours {
    let agents = lines.iter().map(|(point, direction)| dodgy_plain::Agent {
        position: *point,
        velocity: *direction,
        radius: 0.0,
        avoidance_responsibility: 1.0,
    });
    Neighbours {
        agents: agents.collect(),
        radius: 0.0,
        responsibility: 1.0,
        horizon: 1.0,
        time_step: 1.0,
    }
}
