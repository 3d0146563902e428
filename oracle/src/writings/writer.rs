//! The writer, from 01's "Records" and "Refusal numbers" and 02's T-01 alone: fields in the record's order, each first
//! for numbers that are not lent (2), then by its own rule; then numbers that are left over (2); then a buffer shorter
//! than the record (10).

use glam::Vec2;

use super::Writing;
use crate::edge_vectors::call::{CLOSED, OPEN};
use crate::edge_vectors::judge::admits_horizon;
use crate::list_vectors::judge::{
    admits_component, admits_direction, admits_length, admits_line_component,
};
use crate::records::reader::must;
use crate::records::{with_length, MOST_NEIGHBOURS, VERSION};

/// The length that is written; or the number of the refusal, and then the buffer is as it was.
pub fn write(call: &Writing, buffer: &mut [u8]) -> Result<usize, u32> {
    let record = with_length(rest(call)?);
    let start = buffer.get_mut(..record.len()).ok_or(10u32)?;
    start.copy_from_slice(&record);
    Ok(record.len())
}

/// The bytes behind the length.
fn rest(call: &Writing) -> Result<Vec<u8>, u32> {
    let mut rest = vec![VERSION];
    cart(&mut rest, call.cart)?;
    let (obstacles, left) = call.lent.read()?;
    rest.push(obstacles.len() as u8);
    for obstacle in &obstacles {
        let kind = if obstacle.closed { CLOSED } else { OPEN };
        rest.extend([kind as u8, obstacle.vertices.len() as u8]);
        for component in obstacle
            .vertices
            .iter()
            .flat_map(|vertex| [vertex.x, vertex.y])
        {
            rest.extend(component.to_bits().to_be_bytes());
        }
    }
    let mut lines = call.lines.iter().copied();
    count(&mut rest, call.neighbours, MOST_NEIGHBOURS)?;
    for _ in 0..call.neighbours {
        number(&mut rest, lines.next(), admits_line_component)?;
        number(&mut rest, lines.next(), admits_line_component)?;
        let x = number(&mut rest, lines.next(), f32::is_finite)?;
        let y = number(&mut rest, lines.next(), f32::is_finite)?;
        must(admits_direction(Vec2::new(x, y)), 7)?;
    }
    must(left + lines.len() == 0, 2)?;
    Ok(rest)
}

fn cart(
    rest: &mut Vec<u8>,
    [px, py, vx, vy, margin, horizon, wx, wy, limit]: [f32; 9],
) -> Result<(), u32> {
    for component in [px, py, vx, vy] {
        number(rest, Some(component), admits_component)?;
    }
    number(rest, Some(margin), admits_length)?;
    number(rest, Some(horizon), admits_horizon)?;
    for component in [wx, wy] {
        number(rest, Some(component), admits_component)?;
    }
    number(rest, Some(limit), admits_length)?;
    Ok(())
}

fn count(rest: &mut Vec<u8>, count: u32, most: usize) -> Result<(), u32> {
    must(count as usize <= most, 4)?;
    rest.push(count as u8);
    Ok(())
}

fn number(rest: &mut Vec<u8>, lent: Option<f32>, admits: fn(f32) -> bool) -> Result<f32, u32> {
    let number = lent.ok_or(2u32)?;
    must(admits(number), 6)?;
    rest.extend(number.to_bits().to_be_bytes());
    Ok(number)
}
