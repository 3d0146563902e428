//! A call of the linear program as a record has it: the lines are numbers, four a line if they are whole.

use dodgy_plain::debug::Line;
use glam::Vec2;

use crate::line_lists::LineList;

pub struct Call {
    pub wish: Vec2,
    pub limit: f32,
    pub rigid_count: u32,
    pub numbers: Vec<f32>,
}

impl Call {
    pub fn new(list: &LineList) -> Call {
        let mut call = Call {
            wish: list.wish,
            limit: list.limit,
            rigid_count: list.rigid_count as u32,
            numbers: Vec::new(),
        };
        for line in &list.lines {
            call.push(line.point, line.direction);
        }
        call
    }

    pub fn push(&mut self, point: Vec2, direction: Vec2) {
        self.numbers
            .extend([point.x, point.y, direction.x, direction.y]);
    }

    /// Point and direction of each whole line.
    pub fn lines(&self) -> impl Iterator<Item = (Vec2, Vec2)> + '_ {
        self.numbers
            .chunks_exact(4)
            .map(|line| (Vec2::new(line[0], line[1]), Vec2::new(line[2], line[3])))
    }

    pub fn line_count(&self) -> usize {
        self.numbers.len() / 4
    }

    pub fn to_list(&self) -> LineList {
        LineList {
            wish: self.wish,
            limit: self.limit,
            rigid_count: self.rigid_count as usize,
            lines: self
                .lines()
                .map(|(point, direction)| Line { point, direction })
                .collect(),
        }
    }
}
