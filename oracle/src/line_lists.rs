//! Line lists: wish, limit, rigid count and lines; and random ones that the definition of the build admits.

use std::fmt;

use dodgy_plain::debug::Line;
use glam::Vec2;

use crate::random::Random;
use crate::words::{hex, hex_vector};

pub struct LineList {
    pub wish: Vec2,
    pub limit: f32,
    pub rigid_count: usize,
    pub lines: Vec<Line>,
}

impl fmt::Display for LineList {
    fn fmt(&self, output: &mut fmt::Formatter) -> fmt::Result {
        let (wish, limit) = (hex_vector(self.wish), hex(self.limit));
        write!(
            output,
            "wish {wish} limit {limit} rigid {} lines",
            self.rigid_count
        )?;
        for line in &self.lines {
            write!(
                output,
                " {}{}",
                hex_vector(line.point),
                hex_vector(line.direction)
            )?;
        }
        Ok(())
    }
}

/// 0 to 20 lines of one of the layouts below.
pub fn random_list(random: &mut Random) -> LineList {
    let count = random.below(21);
    random_list_of(random, count)
}

/// Rigid count 0 to one more than the lines.
/// Small rigid counts are more common, or few of the failing lists would be relaxed.
pub fn random_list_of(random: &mut Random, count: usize) -> LineList {
    let rigid_count = random.below(count + 2).min(random.below(count + 2));
    let layout = random.pick(&[lattice, scattered, around_rest, bundles, far]);
    let (wish, limit, lines) = layout(random, count);
    LineList {
        wish,
        limit,
        rigid_count,
        lines,
    }
}

type Layout = (Vec2, f32, Vec<Line>);

/// Few different values, so that ties, zeros and exactly parallel lines are common.
fn lattice(random: &mut Random, count: usize) -> Layout {
    let limit = random.below(5) as f32 * 0.5;
    let lines = (0..count).map(|_| lattice_line(random)).collect();
    (whole_vector(random, 3), limit, lines)
}

fn lattice_line(random: &mut Random) -> Line {
    let (along, across) = random.pick(&[(1.0, 0.0), (0.6, 0.8), (0.8, 0.6), (0.0, 1.0)]);
    let direction = Vec2::new(random.signed(along), random.signed(across));
    Line {
        point: whole_vector(random, 2),
        direction,
    }
}

pub fn whole_vector(random: &mut Random, size: usize) -> Vec2 {
    Vec2::new(random.whole(size), random.whole(size))
}

/// Lines anywhere near the circle of the limit: most lists of more than a few lines fail.
fn scattered(random: &mut Random, count: usize) -> Layout {
    let limit = random.within(4.0).abs();
    let lines = (0..count)
        .map(|_| Line {
            point: random.vector_within(4.0),
            direction: random.direction(),
        })
        .collect();
    (random.vector_within(8.0), limit, lines)
}

/// Rest meets nearly all lines, so that long lists are solved to their end.
fn around_rest(random: &mut Random, count: usize) -> Layout {
    let limit = 1.0 + random.within(1.0);
    let lines = (0..count)
        .map(|_| line_around_rest(random, limit))
        .collect();
    (random.vector_within(4.0), limit, lines)
}

fn line_around_rest(random: &mut Random, limit: f32) -> Line {
    let direction = random.direction();
    let distance = random.within(limit).abs();
    let distance = if random.one_in(40) {
        -distance
    } else {
        distance
    };
    Line {
        point: direction.perp() * -distance,
        direction,
    }
}

/// Directions of a few bundles, off by about the tolerance for parallel lines, and opposite ones.
fn bundles(random: &mut Random, count: usize) -> Layout {
    let bundles: Vec<Vec2> = (0..1 + random.below(3))
        .map(|_| random.direction())
        .collect();
    let limit = random.within(4.0).abs();
    let lines = (0..count).map(|_| bundle_line(random, &bundles)).collect();
    (random.vector_within(4.0), limit, lines)
}

fn bundle_line(random: &mut Random, bundles: &[Vec2]) -> Line {
    let direction = random.pick(bundles) + random.vector_within(0.00002);
    let direction = if random.one_in(2) {
        -direction
    } else {
        direction
    };
    Line {
        point: random.vector_within(3.0),
        direction,
    }
}

/// Points up to the bound of line points and directions in most of their band.
fn far(random: &mut Random, count: usize) -> Layout {
    let limit = random.within(1024.0).abs();
    let lines = (0..count).map(|_| far_line(random)).collect();
    (random.vector_within(65536.0), limit, lines)
}

fn far_line(random: &mut Random) -> Line {
    let point = Vec2::new(
        random.magnitude(1.0, 268435456.0),
        random.magnitude(1.0, 268435456.0),
    );
    let length = 1.0 + random.within(0.0004);
    Line {
        point,
        direction: random.direction() * length,
    }
}
