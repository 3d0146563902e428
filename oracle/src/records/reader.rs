//! The judge of scene records, written from the definition of the build and 02's T-07 and T-11 alone: a record's order
//! of faults in "Refusal numbers", "Records", what version 2 changes of both, and doubled vertices. The first fault is
//! told.

use glam::Vec2;

use super::{
    LONGEST_NUMBERED, LONGEST_REST, MOST_NEIGHBOURS, MOST_OBSTACLES, NUMBERED, VERSION,
};
use crate::edge_vectors::call::{CLOSED, SCENE_VERTICES};
use crate::edge_vectors::judge::{admits_horizon, count_fault, is_kind, outline};
use crate::encounters::EdgeLine;
use crate::list_vectors::judge::{
    admits_component, admits_direction, admits_length, admits_line_component,
};
use crate::scenes::{Obstacle, Scene};

/// A scene, its neighbour lines ready made, and their numbers, each 0 under version 1.
pub struct Read {
    pub scene: Scene,
    pub numbers: Vec<u32>,
}

/// The scene of a record of either version; or the number of the refusal.
pub fn read(record: &[u8]) -> Result<Scene, u32> {
    Ok(read_of(record, &[VERSION, NUMBERED])?.scene)
}

/// The same of a reader that takes these versions.
pub fn read_of(record: &[u8], versions: &[u8]) -> Result<Read, u32> {
    judged(record, LONGEST_NUMBERED, versions)
}

/// The scene of a record of version 1, by 01's reader, which knows no other.
pub fn read_version_1(record: &[u8]) -> Result<Scene, u32> {
    Ok(judged(record, LONGEST_REST, &[VERSION])?.scene)
}

fn judged(record: &[u8], longest: usize, versions: &[u8]) -> Result<Read, u32> {
    let (length, rest) = record.split_first_chunk().ok_or(2u32)?;
    let length = usize::from(u16::from_be_bytes(*length));
    must(length <= longest, 4)?;
    must(length == rest.len(), 2)?;
    let mut fields = Fields {
        rest,
        numbered: false,
        numbers: Vec::new(),
    };
    let version = fields.byte()?;
    must(versions.contains(&version), 1)?;
    must(version == NUMBERED || length <= LONGEST_REST, 4)?;
    fields.numbered = version == NUMBERED;
    let scene = fields.scene()?;
    must(fields.rest.is_empty(), 2)?;
    Ok(Read {
        scene,
        numbers: fields.numbers,
    })
}

/// What is left of the record, whether its lines have numbers, and those that were read.
struct Fields<'a> {
    rest: &'a [u8],
    numbered: bool,
    numbers: Vec<u32>,
}

impl Fields<'_> {
    fn scene(&mut self) -> Result<Scene, u32> {
        Ok(Scene {
            position: self.vector(admits_component)?,
            velocity: self.vector(admits_component)?,
            margin: self.number(admits_length)?,
            horizon: self.number(admits_horizon)?,
            wish: self.vector(admits_component)?,
            limit: self.number(admits_length)?,
            obstacles: self.obstacles()?,
            lines: self.lines()?,
            neighbours: None,
        })
    }

    fn obstacles(&mut self) -> Result<Vec<Obstacle>, u32> {
        let count = self.count(MOST_OBSTACLES)?;
        let mut obstacles = Vec::new();
        let mut room = SCENE_VERTICES;
        for _ in 0..count {
            let obstacle = self.obstacle(room)?;
            room -= obstacle.vertices.len();
            obstacles.push(obstacle);
        }
        Ok(obstacles)
    }

    /// `room` is for how many vertices the obstacles before it left room.
    fn obstacle(&mut self, room: usize) -> Result<Obstacle, u32> {
        let kind = u32::from(self.byte()?);
        must(is_kind(kind), 3)?;
        let count = self.count(room)?;
        count_fault(kind, count as u64).map_or(Ok(()), Err)?;
        Ok(Obstacle {
            closed: kind == CLOSED,
            vertices: outline(kind, count, || self.vector(admits_component))?,
        })
    }

    fn lines(&mut self) -> Result<Vec<EdgeLine>, u32> {
        let count = self.count(MOST_NEIGHBOURS)?;
        (0..count).map(|_| self.line()).collect()
    }

    fn line(&mut self) -> Result<EdgeLine, u32> {
        let number = if self.numbered {
            u32::from_be_bytes(self.take()?)
        } else {
            0
        };
        self.numbers.push(number);
        let point = self.vector(admits_line_component)?;
        let direction = self.vector(f32::is_finite)?;
        must(admits_direction(direction), 7)?;
        Ok((point, direction))
    }

    fn count(&mut self, most: usize) -> Result<usize, u32> {
        let count = usize::from(self.byte()?);
        must(count <= most, 4)?;
        Ok(count)
    }

    fn vector(&mut self, admits: fn(f32) -> bool) -> Result<Vec2, u32> {
        Ok(Vec2::new(self.number(admits)?, self.number(admits)?))
    }

    fn number(&mut self, admits: fn(f32) -> bool) -> Result<f32, u32> {
        let number = f32::from_bits(u32::from_be_bytes(self.take()?));
        must(admits(number), 6)?;
        Ok(number)
    }

    fn byte(&mut self) -> Result<u8, u32> {
        let [byte] = self.take()?;
        Ok(byte)
    }

    /// So many of the next bytes.
    fn take<const COUNT: usize>(&mut self) -> Result<[u8; COUNT], u32> {
        let (taken, rest) = self.rest.split_first_chunk().ok_or(2u32)?;
        self.rest = rest;
        Ok(*taken)
    }
}

pub fn must(rule: bool, number: u32) -> Result<(), u32> {
    if rule {
        Ok(())
    } else {
        Err(number)
    }
}
