//! What is refused and what a scene may hold, written from the definition of the build alone: "Refusal numbers" and
//! "What is admitted"; and from 02's T-11. Ends are admitted; a NaN fails every rule.

use glam::Vec2;

use super::call::{Call, CLOSED, OPEN};
use crate::encounters::EdgeLine;
use crate::list_vectors::judge::{admits_component, admits_length, line_faults};
use crate::records::reader::must;

pub const SHORTEST_HORIZON: f32 = 1.0 / 1024.0;
pub const LONGEST_HORIZON: f32 = 1024.0;
pub const MOST_VERTICES: u64 = 64;

/// The first fault before any edge, in the order of a record's fields: position, velocity, margin, horizon; the kind, the
/// count, none where it is open; each vertex, its components first missing, then out of range, then doubled; the closing
/// pair; numbers left over.
pub fn fault(call: &Call) -> Option<u32> {
    let agent = [call.position, call.velocity];
    let admitted = agent.iter().all(|v| admits_component(v.x) && admits_component(v.y));
    if !admitted || !admits_length(call.margin) || !admits_horizon(call.horizon) {
        return Some(6);
    }
    if !is_kind(call.kind) {
        return Some(3);
    }
    count_fault(call.kind, call.count).or_else(|| numbers(call).err())
}

/// The vertices' numbers, no more and no fewer.
fn numbers(call: &Call) -> Result<(), u32> {
    let mut rest = call.numbers.iter();
    outline(call.kind, call.count as usize, || vertex(&mut rest))?;
    must(rest.len() == 0, 2)
}

/// The next two numbers, each first missing (2), then out of range (6).
pub fn vertex<'a>(numbers: &mut impl Iterator<Item = &'a f32>) -> Result<Vec2, u32> {
    let mut component = || -> Result<f32, u32> {
        let number = *numbers.next().ok_or(2u32)?;
        must(admits_component(number), 6)?;
        Ok(number)
    };
    Ok(Vec2::new(component()?, component()?))
}

/// An obstacle's vertices, one behind the other (T-11): none may be equal by value to the one before it (14), nor the
/// last of a closed obstacle to the first (14).
pub fn outline(
    kind: u32,
    count: usize,
    mut next: impl FnMut() -> Result<Vec2, u32>,
) -> Result<Vec<Vec2>, u32> {
    let mut vertices = Vec::new();
    for _ in 0..count {
        let vertex = next()?;
        must(vertices.last() != Some(&vertex), 14)?;
        vertices.push(vertex);
    }
    let wraps = kind == CLOSED && count > 0;
    must(!wraps || vertices.first() != vertices.last(), 14)?;
    Ok(vertices)
}

pub fn is_kind(kind: u32) -> bool {
    kind == CLOSED || kind == OPEN
}

/// Too many vertices, or none though it is open.
pub fn count_fault(kind: u32, count: u64) -> Option<u32> {
    if count > MOST_VERTICES {
        Some(4)
    } else if kind == OPEN && count == 0 {
        Some(5)
    } else {
        None
    }
}

/// A produced edge line that is not refused with 9.
pub fn admits(line: &EdgeLine) -> bool {
    line_faults(line.0, line.1).is_empty()
}

pub fn admits_horizon(number: f32) -> bool {
    (SHORTEST_HORIZON..=LONGEST_HORIZON).contains(&number)
}
