//! The wall check, from 01's "What is admitted", "Refusal numbers" and "Rules of the edges" and 02's T-08 alone; the
//! times are the given `time_to_intersect_lines`'s.

use dodgy_plain::debug::time_to_intersect_lines;
use glam::Vec2;

use super::{Call, Crossed, Told};
use crate::list_vectors::judge::admits_component;
use crate::records::reader::must;
use crate::scenes::Obstacle;

/// The two positions are judged first, then what is lent, then what is left over; then all edges are walked, in record order.
pub fn check(call: &Call) -> Told {
    for number in [call.from.x, call.from.y, call.to.x, call.to.y] {
        must(admits_component(number), 6)?;
    }
    let (obstacles, left) = call.lent.read()?;
    must(left == 0, 2)?;
    let mut crossed = Vec::new();
    for (obstacle, lent) in obstacles.iter().enumerate() {
        for (vertex, edge) in edges(lent).into_iter().enumerate() {
            if crosses(call, edge) {
                crossed.push((obstacle, vertex));
            }
        }
    }
    Ok(crossed.first().map(|&(obstacle, vertex)| Crossed {
        obstacle,
        vertex,
        count: crossed.len(),
    }))
}

/// From each vertex to the next; the last of a closed obstacle is followed by the first.
fn edges(obstacle: &Obstacle) -> Vec<[Vec2; 2]> {
    let mut vertices = obstacle.vertices.clone();
    if obstacle.closed {
        vertices.extend(obstacle.vertices.first());
    }
    vertices.windows(2).map(|edge| [edge[0], edge[1]]).collect()
}

/// "when the lines have times and both times lie from 0 to 1, ends counted"
fn crosses(call: &Call, [left, right]: [Vec2; 2]) -> bool {
    let within = |time: f32| (0.0..=1.0).contains(&time);
    time_to_intersect_lines(call.from, call.to, left, right)
        .is_some_and(|times| within(times.x) && within(times.y))
}
