//! Lists whose every line has to be worked, but for roundings and where a rigid failure comes first: the lines before it
//! leave neither a point that meets it nor a penetration that lets it pass.

use dodgy_plain::debug::Line;

use crate::builds::solve_counted;
use crate::line_lists::LineList;
use crate::list_vectors::call::Call;
use crate::list_vectors::judge::MOST_LINES;
use crate::list_vectors::made::{with_rigid_count, SHORT};
use crate::random::Random;

pub fn short(random: &mut Random) -> Call {
    let count = 3 + random.below(SHORT - 2);
    of_length(random, count)
}

pub fn full(random: &mut Random) -> Call {
    of_length(random, MOST_LINES)
}

/// Half of the lists are met by rest, so that they are solved to their end; most of the others soon fail.
fn of_length(random: &mut Random, count: usize) -> Call {
    let mut list = LineList {
        wish: random.vector_within(4.0),
        limit: 1.0 + random.within(1.0),
        rigid_count: 0,
        lines: Vec::new(),
    };
    let line = random.pick(&[line_met_by_rest, line_anywhere]);
    for _ in 0..count {
        let line = line(random, &list);
        list.lines.push(line);
    }
    with_rigid_count(random, list)
}

/// A small step towards rest, so that there is room for many.
fn line_met_by_rest(random: &mut Random, list: &LineList) -> Line {
    let (Ok(point) | Err(point)) = solve_counted(list).0;
    let direction = random.direction();
    let distance = direction.perp().dot(point);
    let direction = if distance > 0.0 {
        -direction
    } else {
        direction
    };
    Line {
        point: point + direction.perp() * random.within(distance / 32.0).abs(),
        direction,
    }
}

fn line_anywhere(random: &mut Random, list: &LineList) -> Line {
    let (answer, counts) = solve_counted(list);
    let (Ok(point) | Err(point)) = answer;
    let direction = random.direction();
    let deeper = counts.penetration.unwrap_or(0.0) + random.magnitude(0.001, 1.0).abs();
    Line {
        point: point + direction.perp() * deeper,
        direction,
    }
}
