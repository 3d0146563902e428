//! What stands in a session, and what its calls make of it: written from the definition of the build and
//! from requests T-12 and T-13 alone; a change is a withdrawal of several lines and a batch, all of it or nothing.

use dodgy_plain::debug::Line;
use glam::Vec2;

use crate::line_lists::LineList;
use crate::list_vectors::judge::{line_faults, MOST_LINES};

/// The lines in their order, the origin of each, and what they are solved for.
#[derive(Clone)]
pub struct Standing {
    pub wish: Vec2,
    pub limit: f32,
    pub rigid: u32,
    pub lines: Vec<Line>,
    pub origins: Vec<[u32; 3]>,
}

#[derive(Clone)]
pub enum Call {
    Start,
    /// The numbers, four a line, and the origins that it brings, three numbers a line.
    Batch(Vec<f32>, Option<Vec<u32>>),
    Withdrawal(usize),
    /// A withdrawal after which the session goes on as before it.
    Tried(usize),
    /// Which line of a batch is the first that the point now does not strictly meet.
    Asked(Vec<f32>),
    /// The indices that are withdrawn, and a batch: all of it, or nothing.
    Change(Vec<usize>, Vec<f32>, Vec<u32>),
    /// The same for all lines whose origin has this kind and place.
    ChangeOrigin(u32, u32, Vec<f32>, Vec<u32>),
}

impl Standing {
    pub fn list(&self) -> LineList {
        LineList {
            wish: self.wish,
            limit: self.limit,
            rigid_count: self.rigid as usize,
            lines: self.lines.clone(),
        }
    }

    /// Takes a call, and tells 0; or the number of its refusal, and all stands as it stood.
    pub fn take(&mut self, call: &Call) -> u32 {
        match call {
            Call::Start => 0,
            Call::Batch(numbers, origins) => self.feed(numbers, origins.as_deref().unwrap_or(&[])),
            Call::Withdrawal(index) | Call::Tried(index) => self.withdraw(*index),
            Call::Asked(numbers) => self.clone().feed(numbers, &[]),
            Call::Change(indices, numbers, origins) => self.change(indices, numbers, origins),
            Call::ChangeOrigin(kind, place, numbers, origins) => {
                self.change(&self.of_origin(*kind, *place), numbers, origins)
            }
        }
    }

    /// "A line is met if determinant(direction, point now − line point) > 0": the first that is not, by the index that it gets.
    pub fn first_unmet(&self, point: Vec2, call: &Call) -> Option<usize> {
        let Call::Asked(numbers) = call else {
            return None;
        };
        let is_met = |line: Line| {
            let from = point - line.point;
            line.direction.x * from.y - line.direction.y * from.x > 0.0
        };
        let place = numbers.chunks_exact(4).position(|four| !is_met(line_of(four)))?;
        Some(self.lines.len() + place)
    }

    /// "Line list: four numbers a line, else 2; 4; .. lines in order (6, 7)"; origins are judged where the lines' count is.
    fn feed(&mut self, numbers: &[f32], origins: &[u32]) -> u32 {
        let count = numbers.len() / 4;
        if numbers.len() % 4 != 0 || !(origins.is_empty() || origins.len() == 3 * count) {
            return 2;
        }
        if self.lines.len() + count > MOST_LINES {
            return 4;
        }
        let lines: Vec<Line> = numbers.chunks_exact(4).map(line_of).collect();
        for line in &lines {
            if let Some(fault) = line_faults(line.point, line.direction).first() {
                return *fault;
            }
        }
        self.lines.extend(lines);
        self.origins
            .extend(origins.chunks_exact(3).map(|three| [three[0], three[1], three[2]]));
        self.origins.resize(self.lines.len(), [0; 3]);
        0
    }

    /// The indices of the lines whose origin has this kind and place.
    pub fn of_origin(&self, kind: u32, place: u32) -> Vec<usize> {
        let has = |index: &usize| self.origins[*index][..2] == [kind, place];
        (0..self.lines.len()).filter(has).collect()
    }

    /// Indices of what stands: 15 at the first that is not above the one before or not below the count. The rigid count
    /// is one less for each that is below it.
    fn change(&mut self, indices: &[usize], numbers: &[f32], origins: &[u32]) -> u32 {
        let mut low = 0;
        for index in indices {
            if *index < low || *index >= self.lines.len() {
                return 15;
            }
            low = index + 1;
        }
        let is_left = |index: &usize| !indices.contains(index);
        let left: Vec<usize> = (0..self.lines.len()).filter(is_left).collect();
        let rigid = self.rigid as usize;
        let below = indices.iter().filter(|index| **index < rigid).count();
        let mut changed = Standing {
            lines: left.iter().map(|index| self.lines[*index].clone()).collect(),
            origins: left.iter().map(|index| self.origins[*index]).collect(),
            rigid: self.rigid - below as u32,
            ..*self
        };
        let told = changed.feed(numbers, origins);
        if told == 0 {
            *self = changed;
        }
        told
    }

    /// "the rigid count is one less if the index was below it. .. Later lines move down one"; "15 if the index is not
    /// below the line count"
    fn withdraw(&mut self, index: usize) -> u32 {
        if index >= self.lines.len() {
            return 15;
        }
        self.lines.remove(index);
        self.origins.remove(index);
        if index < self.rigid as usize {
            self.rigid -= 1;
        }
        0
    }
}

pub fn line_of(numbers: &[f32]) -> Line {
    Line {
        point: Vec2::new(numbers[0], numbers[1]),
        direction: Vec2::new(numbers[2], numbers[3]),
    }
}

pub fn numbers_of(lines: &[Line]) -> Vec<f32> {
    let four = |line: &Line| [line.point.x, line.point.y, line.direction.x, line.direction.y];
    lines.iter().flat_map(four).collect()
}
