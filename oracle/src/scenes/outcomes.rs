//! What the passes over a scene come to: an outcome, or refusal 9.

use counters::Branch;

use super::passes::{Pass, Passes};
use crate::records::answers::{Answer, Velocity};

/// A pass made an edge line that is not admitted.
pub const NOT_ADMITTED: u8 = 9;

impl Passes {
    /// "First pass success is outcome 1, or 2 if relaxed"; 3, 4 and 5 are those of a second pass. Probes add over passes.
    pub fn answer(&self) -> Answer {
        match self {
            Passes::First(pass) => velocity(1, pass, 0),
            Passes::Both(first, second) => velocity(3, second, first.solved.counts.probes),
            Passes::NotAdmittedFirst(_) | Passes::NotAdmittedSecond(_) => {
                Answer::Refused(NOT_ADMITTED)
            }
        }
    }

    /// Whose point is taken.
    pub fn last(&self) -> Option<&Pass> {
        match self {
            Passes::First(pass) | Passes::Both(_, pass) => Some(pass),
            _ => None,
        }
    }

    /// Whether the answer has a zero whose sign the Rust leaves open: its `min` and `max` met two zeros of unlike sign.
    pub fn leaves_a_zero_open(&self) -> bool {
        self.last().is_some_and(|pass| {
            let (Ok(point) | Err(point)) = pass.solved.answer;
            let zero = point.x == 0.0 || point.y == 0.0;
            zero && pass.solved.branches.took(Branch::UnlikeZeros)
        })
    }
}

/// `solved` is the outcome of a pass that met all lines.
fn velocity(solved: u8, pass: &Pass, probes_before: u32) -> Answer {
    let counts = &pass.solved.counts;
    let (outcome, point) = match (pass.solved.answer, counts.failed_line) {
        (Ok(point), None) => (solved, point),
        (Ok(point), Some(_)) => (solved + 1, point),
        (Err(point), _) => (solved + 2, point),
    };
    Answer::Velocity(Velocity {
        outcome,
        point,
        failed_line: counts.failed_line.map(|index| index as u16),
        probes: probes_before + counts.probes,
    })
}
