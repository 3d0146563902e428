//! Scene and answer records, big-endian, as the definition of the build has them ("Records"), and scene records of
//! version 2 (02, T-07).

pub mod answers;
pub mod reader;

use glam::Vec2;

use crate::edge_vectors::call::{CLOSED, OPEN};
use crate::scenes::Scene;

pub const VERSION: u8 = 1;
/// The version whose neighbour lines have numbers.
pub const NUMBERED: u8 = 2;
/// The greatest length field under version 1, which counts the bytes behind it.
pub const LONGEST_REST: usize = 2_631;
/// The greatest under version 2.
pub const LONGEST_NUMBERED: usize = 2_887;
pub const MOST_OBSTACLES: usize = 16;
pub const MOST_NEIGHBOURS: usize = 64;

/// Numbers by their own bits; counts as they are, so that they must fit a byte.
pub fn scene_record(scene: &Scene) -> Vec<u8> {
    record_of(VERSION, scene, &[])
}

/// The same with a number for each neighbour line.
pub fn numbered_record(scene: &Scene, numbers: &[u32]) -> Vec<u8> {
    assert_eq!(numbers.len(), scene.lines.len());
    record_of(NUMBERED, scene, numbers)
}

fn record_of(version: u8, scene: &Scene, numbers: &[u32]) -> Vec<u8> {
    let mut rest = vec![version];
    vector(&mut rest, scene.position);
    vector(&mut rest, scene.velocity);
    number(&mut rest, scene.margin);
    number(&mut rest, scene.horizon);
    vector(&mut rest, scene.wish);
    number(&mut rest, scene.limit);
    rest.push(scene.obstacles.len() as u8);
    for obstacle in &scene.obstacles {
        let kind = if obstacle.closed { CLOSED } else { OPEN };
        rest.extend([kind as u8, obstacle.vertices.len() as u8]);
        for vertex in &obstacle.vertices {
            vector(&mut rest, *vertex);
        }
    }
    rest.push(scene.lines.len() as u8);
    for (place, (point, direction)) in scene.lines.iter().enumerate() {
        let number = numbers.get(place).into_iter();
        rest.extend(number.flat_map(|number| number.to_be_bytes()));
        vector(&mut rest, *point);
        vector(&mut rest, *direction);
    }
    with_length(rest)
}

/// A record of these bytes behind its length.
pub fn with_length(rest: Vec<u8>) -> Vec<u8> {
    let mut record = (rest.len() as u16).to_be_bytes().to_vec();
    record.extend(rest);
    record
}

/// What is left of a stream, record by record; a last one cut short is what there is of it.
pub struct Records<'a>(pub &'a [u8]);

impl<'a> Iterator for Records<'a> {
    type Item = &'a [u8];

    fn next(&mut self) -> Option<&'a [u8]> {
        let length = match self.0 {
            [] => return None,
            [high, low, ..] => 2 + usize::from(u16::from_be_bytes([*high, *low])),
            _ => 1,
        };
        let (record, rest) = self.0.split_at(length.min(self.0.len()));
        self.0 = rest;
        Some(record)
    }
}

fn vector(bytes: &mut Vec<u8>, vector: Vec2) {
    number(bytes, vector.x);
    number(bytes, vector.y);
}

fn number(bytes: &mut Vec<u8>, number: f32) {
    bytes.extend(number.to_bits().to_be_bytes());
}
