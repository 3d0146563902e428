//! Answer records: written from what the passes over a scene gave, and read again.

use glam::Vec2;

use super::{with_length, VERSION};
use crate::words::hex_bytes;

const NO_LINE: u16 = u16::MAX;
const REFUSED: u8 = 128;

pub enum Answer {
    Velocity(Velocity),
    Refused(u8),
}

pub struct Velocity {
    pub outcome: u8,
    pub point: Vec2,
    /// That of the last pass run.
    pub failed_line: Option<u16>,
    /// Those of all passes.
    pub probes: u32,
}

impl Answer {
    pub fn record(&self) -> Vec<u8> {
        let mut rest = vec![VERSION];
        match self {
            Answer::Refused(number) => rest.push(REFUSED + number),
            Answer::Velocity(velocity) => {
                rest.push(velocity.outcome);
                rest.extend(velocity.point.x.to_bits().to_be_bytes());
                rest.extend(velocity.point.y.to_bits().to_be_bytes());
                rest.extend(velocity.failed_line.unwrap_or(NO_LINE).to_be_bytes());
                rest.extend(velocity.probes.to_be_bytes());
            }
        }
        with_length(rest)
    }
}

/// What kind of answer a record is.
pub fn name_of(record: &[u8]) -> Result<String, String> {
    match record {
        [0, 16, VERSION, outcome @ 1..=5, point_and_counts @ ..]
            if point_and_counts.len() == 14 =>
        {
            Ok(format!("outcome {outcome}"))
        }
        [0, 2, VERSION, code @ (129..=138 | 142)] => Ok(format!("refusal {}", code - REFUSED)),
        _ => Err(format!("not an answer record: {}", hex_bytes(record))),
    }
}
