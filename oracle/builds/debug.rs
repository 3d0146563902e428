//! The window into the given files: lib.rs has a module of this name under its feature "debug" and hands it the lines
//! of each pass. Whatever the files keep private is handed out here as it stands.

use crate::Agent;

pub use crate::common::{determinant, time_to_intersect_lines};
pub use crate::linear_programming::{solve_linear_program, Line};
pub use crate::obstacles::get_lines_for_agent_to_obstacle;

/// The lines of the pass, or of both passes, that lib.rs ran.
pub enum DebugData {
    Satisfied {
        constraints: Vec<Line>,
    },
    Fallback {
        original_constraints: Vec<Line>,
        fallback_constraints: Vec<Line>,
    },
}

pub fn line_for_neighbour(agent: &Agent, other: &Agent, horizon: f32, time_step: f32) -> Line {
    agent.get_line_for_neighbour(other, horizon, time_step)
}

/// The texts that were compiled: lib.rs, the solver, the edges.
pub const TEXTS: [&str; 3] = [
    include_str!("lib.rs"),
    include_str!("linear_programming.rs"),
    include_str!("obstacles.rs"),
];
