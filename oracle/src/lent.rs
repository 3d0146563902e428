//! Obstacles that are lent as numbers (02, T-01, T-08 and T-11): what they are by 01's "Refusal numbers" alone, fields
//! in a scene's order, each first for numbers that are not lent (2), then by its own rule; and how they are spoiled.

use crate::edge_vectors::call::{CLOSED, OPEN, SCENE_VERTICES};
use crate::edge_vectors::judge::{count_fault, is_kind, outline, vertex};
use crate::list_vectors::judge::REACH;
use crate::list_vectors::refused::too_large;
use crate::random::Random;
use crate::records::reader::must;
use crate::records::MOST_OBSTACLES;
use crate::scenes::Obstacle;

/// The obstacles' count is an argument of its own, and each count may say something else than what is lent.
#[derive(Clone)]
pub struct Lent {
    pub obstacles: u32,
    pub kinds: Vec<u8>,
    pub counts: Vec<u8>,
    pub vertices: Vec<f32>,
}

impl Lent {
    pub fn of(obstacles: &[Obstacle]) -> Lent {
        let kind = |obstacle: &Obstacle| if obstacle.closed { CLOSED } else { OPEN };
        let vertices = obstacles.iter().flat_map(|obstacle| &obstacle.vertices);
        Lent {
            obstacles: obstacles.len() as u32,
            kinds: obstacles
                .iter()
                .map(|obstacle| kind(obstacle) as u8)
                .collect(),
            counts: obstacles
                .iter()
                .map(|obstacle| obstacle.vertices.len() as u8)
                .collect(),
            vertices: vertices.flat_map(|vertex| [vertex.x, vertex.y]).collect(),
        }
    }

    /// The obstacles, and how much is lent beyond what the counts say; or the number of the first fault.
    pub fn read(&self) -> Result<(Vec<Obstacle>, usize), u32> {
        let mut kinds = self.kinds.iter();
        let mut counts = self.counts.iter();
        let mut vertices = self.vertices.iter();
        must(self.obstacles as usize <= MOST_OBSTACLES, 4)?;
        let mut obstacles = Vec::new();
        let mut room = SCENE_VERTICES;
        for _ in 0..self.obstacles {
            let kind = (*kinds.next().ok_or(2u32)?).into();
            must(is_kind(kind), 3)?;
            let count = usize::from(*counts.next().ok_or(2u32)?);
            must(count <= room, 4)?;
            count_fault(kind, count as u64).map_or(Ok(()), Err)?;
            room -= count;
            obstacles.push(Obstacle {
                closed: kind == CLOSED,
                vertices: outline(kind, count, || vertex(&mut vertices))?,
            });
        }
        Ok((obstacles, kinds.len() + counts.len() + vertices.len()))
    }
}

// ---- how they are spoiled

pub fn vertex_number(random: &mut Random, lent: &mut Lent) {
    let number = too_large(random, REACH);
    replace(random, &mut lent.vertices, number);
}

pub fn kind(random: &mut Random, lent: &mut Lent) {
    let kind = random.below(4) as u8;
    replace(random, &mut lent.kinds, kind);
}

pub fn own_count(random: &mut Random, lent: &mut Lent) {
    let count = random.pick(&[0, 1, 2, 3, 63, 64, 65, 192, 255]);
    replace(random, &mut lent.counts, count);
}

pub fn obstacle_count(random: &mut Random, lent: &mut Lent) {
    lent.obstacles = beside(random, lent.obstacles);
}

pub fn kinds_lent(random: &mut Random, lent: &mut Lent) {
    resize(random, &mut lent.kinds, 1, 1);
}

pub fn counts_lent(random: &mut Random, lent: &mut Lent) {
    resize(random, &mut lent.counts, 1, 1);
}

pub fn vertices_lent(random: &mut Random, lent: &mut Lent) {
    resize(random, &mut lent.vertices, 4, 0.5);
}

/// One more, one less, or far too many.
pub fn beside(random: &mut Random, count: u32) -> u32 {
    let far = random.pick(&[16, 17, 64, 65, 256, u32::MAX]);
    random.pick(&[count + 1, count.saturating_sub(1), far])
}

pub fn replace<T: Copy>(random: &mut Random, lent: &mut [T], value: T) {
    if !lent.is_empty() {
        let place = random.below(lent.len());
        lent[place] = value;
    }
}

/// At most so many fewer or more.
pub fn resize<T: Copy>(random: &mut Random, lent: &mut Vec<T>, most: usize, value: T) {
    let by = 1 + random.below(most);
    let length = if random.one_in(2) {
        lent.len() + by
    } else {
        lent.len().saturating_sub(by)
    };
    lent.resize(length, value);
}
